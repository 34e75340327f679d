//! The published registers: handles, openers, and what is refused.

use super::{both_modes, tables::Path, Family, EIGHTS};
use crate::hexadecimal::encode;
use crate::register::{run, Finding, Inquiry, WIDTH};
use crate::words::*;

const HEADER: &str = "\
# Registers for checking a program that works out whose handle is which, and who can open a segment.
# README.md beside this file explains the lines. Segments, counts, numbers, entries and lengths of
# buffers are decimal, the rest is hexadecimal.
";

type Entries = &'static [[u8; 2]];

/// Registers that are done: the cluster, the mode, the masks that make the handle supplied from the primary one, and
/// the entries.
const DONE_ONES: [(usize, usize, Path, Entries); 4] = [
    (0, 0, &[], &[[3, 0x3f], [0, 0xfe], [0, 0x7f], [2, 0x7d], [4, 0x70]]),
    (1, 1, &[0xfe, 0x7d], &[[4, 0x70], [1, 0x10], [4, 0x0c], [0, 0xff], [4, 0xa3], [3, 0x08]]),
    (3, 0, &[0xfe, 0xfd, 0xfb, 0xf7], &[[2, 0xf0], [0, 0xff]]),
    (2, 1, &[], &[]),
];

/// Entries that are refused with the primary handle: by a way that meets a missing entry, by one that comes round, by a
/// step that leaves nothing, by one that finds no flat subselector. Then where two could be told.
const REFUSED_ONES: [Entries; 20] = [
    &[[2, 0xff]],
    &[[0, 0xff], [0xff, 0xff]],
    &[[2, 0xff], [3, 0xff], [4, 0xff]],
    &[[1, 0xff]],
    &[[0, 0xff], [3, 0xff], [2, 0xff]],
    &[[2, 0xff], [3, 0xff], [3, 0xff]],
    &[[0, 0x00]],
    &[[2, 0x0f], [0, 0xf0]],
    &[[0, 0xfe], [1, 0xfd], [2, 0xfb], [3, 0xf7], [4, 0xef]],
    &[[2, 0xef], [3, 0xf7], [4, 0xfb], [5, 0xfd], [0, 0xfe]],
    &[[2, 0x00]],
    &[[1, 0x00]],
    &[[2, 0xef], [3, 0xf7], [4, 0xfb], [5, 0xfd], [6, 0xfe]],
    &[[2, 0xef], [3, 0xf7], [4, 0xfb], [5, 0xfd], [1, 0xfe]],
    &[[2, 0x0f], [3, 0xf7], [4, 0xfb], [5, 0xfd], [0, 0xfe]],
    &[[2, 0x00], [3, 0xef], [4, 0xf7], [5, 0xfb], [6, 0xfd], [0, 0xfe]],
    &[[0, 0x00], [3, 0xff]],
    &[[0, 0xff], [2, 0xff], [4, 0xff]],
    &[[2, 0xff], [0, 0x00]],
    &[[2, 0xff], [3, 0xff]],
];

const SEGMENTS_OF_EIGHT: usize = WIDTH.segments();

/// The whole text.
pub fn text() -> String {
    let done = DONE_ONES.map(|(cluster, mode, masks, entries)| {
        let cluster = &EIGHTS[cluster];
        let family = &both_modes(cluster)[mode];
        let weaken = |handle: Handle, mask: &u16| handle.weaken(*mask).expect("some are left");
        let supplied = masks.iter().fold(family.handle(), weaken).to_bytes();
        let about = format!("\n# Cluster {}, to {}.\n", cluster.name, family.mode);
        // Those of a short register are asked for the first and the last segment alone.
        let by = if entries.len() > 2 { 1 } else { SEGMENTS_OF_EIGHT - 1 };
        let questions = [None].into_iter().chain((0..SEGMENTS_OF_EIGHT).step_by(by).map(Some));
        about + &questions.map(|segment| line(&inquiry(&supplied, segment, entries), None)).collect::<String>()
    });
    let [family, _] = both_modes(&EIGHTS[0]);
    let primary = family.handle().to_bytes();
    let entries = REFUSED_ONES.map(|entries| line(&inquiry(&primary, None, entries), None));
    [HEADER, &done.concat(), "\n# Refused as a whole.\n", &whole(&family), "\n# Refused for an entry.\n"].concat()
        + &entries.concat()
        + &line(
            &inquiry(&family.converted(Selector::new(WIDTH, [0x0f, 0xf0, 255, 255])).to_bytes(), None, &[[0, 255]]),
            None,
        )
}

/// What is refused with each number of the call as a whole, beside that which would come next.
fn whole(family: &Family) -> String {
    let (primary, gapped) = (family.handle(), Selector::new(WIDTH, [255, 254, 255, 255]));
    let gapped = Handle { selector: gapped, ..primary };
    let nowhere = Handle { node: 4, ..gapped };
    let other = |width| Handle::primary(width, nowhere.node, nowhere.local, *family.primary).to_bytes();
    let (fine, many): (Entries, _) = (&[[0, 0x0f], [1, 0x03]], [[0, 0xff]; 256]);
    let bytes = primary.to_bytes();
    let odd = Inquiry { entries: vec![2, 0, 0], ..inquiry(&bytes, None, &[]) };
    let lines = [
        line(&inquiry(&other(Width::Four), None, fine), None),
        line(&inquiry(&other(Width::Sixteen), None, fine), None),
        line(&inquiry(&bytes[..22], None, fine), None),
        line(&inquiry(&nowhere.to_bytes(), None, fine), None),
        line(&inquiry(&Handle { local: 8, ..primary }.to_bytes(), Some(8), fine), None),
        line(&inquiry(&gapped.to_bytes(), Some(8), fine), None),
        line(&inquiry(&bytes, Some(256), fine), None),
        line(&Inquiry { handle: gapped.to_bytes(), ..odd.clone() }, None),
        line(&odd, Some(22)),
        line(&inquiry(&bytes, None, &many), None),
        line(&inquiry(&bytes, None, fine), Some(45)),
        line(&inquiry(&bytes, Some(7), fine), Some(1)),
        line(&inquiry(&bytes, None, &[[2, 0]]), Some(22)),
    ];
    lines.concat()
}

fn inquiry(handle: &[u8], segment: Option<usize>, entries: &[[u8; 2]]) -> Inquiry {
    Inquiry { handle: handle.to_vec(), segment, entries: entries.concat() }
}

/// The answer to an inquiry, with a buffer of so many bytes where the line tells it, and else of as many as it needs.
/// Where a refusal tells neither a segment nor a buffer, it is the same for both questions and every segment.
fn line(asked: &Inquiry, buffer: Option<usize>) -> String {
    let answer = |asked: &Inquiry| {
        let mut bytes = vec![0; buffer.unwrap_or(asked.needed())];
        (run(asked, &mut bytes), bytes)
    };
    let (finding, bytes) = answer(asked);
    let segment = asked.segment.map_or(String::new(), |segment| format!(" segment={segment}"));
    let question = format!("handle={}{segment} entries={}", encode(&asked.handle), encode(&asked.entries));
    match (finding, asked.segment) {
        (Finding { number: DONE, .. }, None) => format!("register {question} handles={}\n", encode(&bytes)),
        (Finding { number: DONE, count, .. }, Some(_)) => {
            format!("openers {question} openers={} count={count}\n", encode(&bytes[..count]))
        }
        (Finding { number, entry, .. }, segment) => {
            let mut others = (0..SEGMENTS_OF_EIGHT).map(|other| Inquiry { segment: Some(other), ..asked.clone() });
            assert!(segment.is_some() || buffer.is_some() || others.all(|other| answer(&other).0 == finding));
            let buffer = buffer.map_or(String::new(), |bytes| format!(" buffer={bytes}"));
            format!("refused {question}{buffer} number={number} entry={entry}\n")
        }
    }
}
