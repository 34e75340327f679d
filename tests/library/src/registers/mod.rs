//! Registers of handles given out: both questions, compared with the model, and what holds of their answers by the
//! library's side alone.

mod chance;
mod met;

use crate::edges::{around, count, each, Asked};
use crate::words::*;
use chance::Register;
use met::Seen;
use model::register::{run, Finding, Inquiry, WIDTH};

/// Something that answers inquiries; [`guard::look_up`] is the one to be compared.
pub type Office<'a> = &'a dyn Fn(&Inquiry, &mut [u8]) -> Finding;

/// A handle's bytes.
const HANDLE: usize = WIDTH.handle_bytes();

/// All that has to be met.
pub fn due() -> Met {
    Met::new("registers", met::due())
}

/// Both questions about so many registers.
pub fn compare(office: Office, seed: u64, registers: u64) -> Result<Met, String> {
    let mut met = due();
    cases(seed, registers, |random| {
        let register = Register::by_chance(random);
        for of_openers in [false, true] {
            let (inquiry, room) = register.asked(random, of_openers);
            let finding = one(office, &inquiry, &bytes(random, room))?;
            met.note_all(Seen { inquiry: &inquiry, bytes: room, finding }.met());
        }
        Ok(())
    })?;
    Ok(met)
}

/// Puts an inquiry to both. Gives what they find, or tells in what they differ.
fn one(office: Office, inquiry: &Inquiry, buffer: &[u8]) -> Result<Finding, String> {
    let (mut expected_bytes, mut found_bytes) = (buffer.to_vec(), buffer.to_vec());
    let expected = run(inquiry, &mut expected_bytes);
    let found = office(inquiry, &mut found_bytes);
    let compared = match expected == found {
        true => same_bytes("the buffers", &expected_bytes, &found_bytes),
        false => Err("the findings differ".to_string()),
    };
    let told = |finding: &Finding| {
        let Finding { number, entry, count } = finding;
        format!("number {number}, entry {entry}, count {count}")
    };
    match compared {
        Ok(()) => Ok(found),
        Err(what) => {
            let (model, library) = (told(&expected), told(&found));
            let asked = format!("{inquiry:?}, buffer of {} bytes", buffer.len());
            Err(format!("{what}\n  asked:   {asked}\n  model:   {model}\n  library: {library}"))
        }
    }
}

/// Every length of a handle, of the entries and of the buffer, every segment and every mask, where all else is right.
pub fn edges(office: Office, seed: u64) -> Result<Asked, String> {
    each(seed, [false, true], |random, of_openers, asked| {
        let primary = Handle::primary(WIDTH, 3, 7, random.bytes());
        let segment = of_openers.then_some(5);
        let entries = vec![2, 0x7f, 3, 0xfe, 0, 0xff];
        let right = Inquiry { handle: primary.to_bytes(), segment, entries };
        let room = right.needed();
        let mut put = |inquiry: &Inquiry, room: usize| {
            let buffer: Vec<u8> = (0..room).map(|at| 0x80 | at as u8).collect();
            one(office, inquiry, &buffer).map(|finding| count(asked, finding.number == DONE))
        };
        for length in 0..=255 {
            let mut handle = right.handle.clone();
            handle.resize(length, 0xff);
            put(&Inquiry { handle, ..right.clone() }, room)?;
        }
        for length in 0..=520 {
            let entries: Vec<u8> = (0..length).map(|at| if at % 2 == 0 { 0 } else { 0xfe }).collect();
            let inquiry = Inquiry { entries, ..right.clone() };
            put(&inquiry, inquiry.needed())?;
            put(&inquiry, inquiry.needed().saturating_sub(1))?;
        }
        (0..=room + 30).try_for_each(|room| put(&right, room))?;
        if of_openers {
            around(5, 300).try_for_each(|other| put(&Inquiry { segment: Some(other), ..right.clone() }, room))?;
        }
        for (parent, mask) in (0..=255).flat_map(|number| [(number, 0xff), (3, number), (0, number)]) {
            put(&Inquiry { entries: vec![2, 0x7f, parent, mask, 0, 0x7e], ..right.clone() }, room)?;
        }
        Ok(())
    })
}

/// What holds of the answers, judged by the library's side alone: the handle of an entry is that of the one it was
/// weakened from, weakened by call 7; those who open a segment are the entries whose handle references it; both
/// questions are refused alike. Gives how many registers were done.
pub fn laws(office: Office, seed: u64, registers: u64) -> Result<u64, String> {
    let mut done = 0;
    cases(seed, registers, |random| {
        let register = Register::by_chance(random);
        let inquiry = Inquiry { segment: None, ..register.asked(random, false).0 };
        let mut handles = vec![0; inquiry.needed()];
        let finding = office(&inquiry, &mut handles);
        done += u64::from(finding.number == DONE);
        holds(office, &inquiry, &finding, &handles).map_err(|what| format!("{what}\n  asked:   {inquiry:?}"))
    })?;
    Ok(done)
}

fn holds(office: Office, inquiry: &Inquiry, finding: &Finding, handles: &[u8]) -> Result<(), String> {
    let told = |holds: bool, what: &str| if holds { Ok(()) } else { Err(what.to_string()) };
    let entries = || (1..).zip(handles.chunks(HANDLE));
    for segment in 0..WIDTH.segments() {
        let mut openers = vec![0; inquiry.count()];
        let other = office(&Inquiry { segment: Some(segment), ..inquiry.clone() }, &mut openers);
        told(
            (other.number, other.entry) == (finding.number, finding.entry),
            "the two questions are refused otherwise",
        )?;
        if finding.number != DONE {
            told(
                other.count == 0 && openers.iter().chain(handles).all(|byte| *byte == 0),
                "a refusal gives something",
            )?;
            continue;
        }
        let references = |handle: &[u8]| handle[HANDLE - SUBSELECTORS..].iter().all(|part| part >> segment & 1 == 1);
        let opening: Vec<usize> = entries().filter(|(_, handle)| references(handle)).map(|(entry, _)| entry).collect();
        let given: Vec<usize> = openers.iter().map(|entry| usize::from(*entry)).take(other.count).collect();
        told(other.count == opening.len() && given == opening, "those who open a segment do not reference it")?;
    }
    for (entry, handle) in entries().filter(|_| finding.number == DONE) {
        let (from, mask) = inquiry.entry(entry);
        let parent = if from == 0 { &inquiry.handle } else { &handles[HANDLE * (from - 1)..HANDLE * from] };
        told(guard::weaken(parent, mask.into()) == (DONE, handle.to_vec()), "a handle is not that of a weakening")?;
    }
    Ok(())
}
