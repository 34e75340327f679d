//! Two cuts and one cut (§10): handles that validate in a mode, weakened by one mask and then by a second, in either order,
//! or once by the bits that both share. What holds of the three is judged by the library's side alone; then every reply
//! is compared with the model's.

mod chance;
mod law;
mod met;

use crate::words::*;
use chance::Case;
use law::Trial;
use model::{cuts::Way, hexadecimal::encode as hex, model::run};

/// All that has to be met.
pub fn due() -> Met {
    Met::new("two cuts and one cut", met::due())
}

/// So many handles, each cut in all ways. Where several laws are broken, the first of them is told, whichever the case; a
/// reply that is not the model's comes after all laws.
pub fn compare(guard: Guard, seed: u64, handles: u64) -> Result<Met, String> {
    let (mut met, mut at) = (due(), 0);
    let mut told: Option<(usize, String)> = None;
    cases(seed, handles, |random| {
        at += 1;
        let case = Case::by_chance(random);
        let mut asked = Asked { guard, case: &case, held: case.held.clone(), all: Vec::new() };
        let trial = Trial::of(&mut asked);
        match trial.broken().map(|(law, what)| (law, asked.told(what))).or_else(|| asked.differs()) {
            None => met.note_all(met::Seen::of(&case, &trial.cuts).met()),
            Some((law, what)) if told.as_ref().is_none_or(|(first, _)| law < *first) => {
                told = Some((law, format!("case {at} of seed {seed}: {what}")));
            }
            Some(_) => {}
        }
        Ok(())
    })?;
    told.map_or(Ok(met), |(_, what)| Err(what))
}

/// How many handles of each width and mode were cut, and how often each way was done.
pub fn table(met: &Met) -> String {
    let row = |name: &str, cells: Vec<String>| {
        let cells: String = cells.iter().map(|cell| format!("{cell:>13}")).collect();
        format!("{name:<15}{cells}\n")
    };
    let heads = ["handles".to_string()].into_iter().chain(Way::ALL.map(|way| format!("{way:?}")));
    let rows = met::classes().map(|(width, mode)| {
        let names = [met::HANDLE.to_string()].into_iter().chain(Way::ALL.map(met::done));
        let counts = names.map(|what| met.count(&met::of(width, mode, &what)).to_string());
        row(&format!("{} {mode:?}", width.segments()), counts.collect())
    });
    row("width \\ done", heads.collect()) + &rows.collect::<String>()
}

/// What is asked of the library about one case.
struct Asked<'a> {
    guard: Guard<'a>,
    case: &'a Case,
    held: Held,
    all: Vec<(Question, Answer)>,
}

impl Asked<'_> {
    fn ask(&mut self, call: Call) -> Reply {
        let question = Question { behind: self.case.behind, ..Question::of(call) };
        let answer = (self.guard)(&mut self.held, &question);
        let reply = answer.reply.clone();
        self.all.push((question, answer));
        reply
    }

    fn weaken(&mut self, handle: &HandleBytes, mask: u16) -> Reply {
        self.ask(Call::weaken(mask, handle.clone()))
    }

    fn validates(&mut self, handle: &HandleBytes) -> bool {
        self.ask(Call::validate(self.case.mode.number(), handle.clone())).is_done()
    }

    fn reduce(&mut self, handle: &HandleBytes) -> Reply {
        self.ask(Call::reduce(self.case.mode.number(), handle.clone()))
    }

    /// What is wrong, the case, and all that was asked, a line each.
    fn told(&self, what: &str) -> String {
        let line = |(question, Answer { reply, .. }): &(Question, Answer)| {
            let (call, mode) = (&question.call, self.case.mode.number());
            let by = if let Call::Weaken { mask, .. } = call { format!("by {mask:04x}") } else { format!("in {mode}") };
            let [handle, given] = [call.handle_bytes().unwrap_or(&[]), &reply.first].map(hex);
            let (name, number, count) = (name(question.code()), reply.number, reply.count);
            format!("\n  {name} of {handle} {by}: number {number}, handle {given}, count {count}")
        };
        format!("{what}\n  {}{}", self.case, self.all.iter().map(line).collect::<String>())
    }

    /// The first reply that is not the model's, told after all laws.
    fn differs(&self) -> Option<(usize, String)> {
        // Read once: by the model, too, none of these calls changes it.
        let mut store = decode(&self.case.held.image).expect("it is a store's");
        let mut memory = self.case.held.memory;
        self.all.iter().find_map(|(question, found)| {
            let expected = Answer { reply: run(&mut store, &mut memory, &mut [], &question.call), buffer: Vec::new() };
            let what = same_answer(&expected, found).err()?;
            let told = format!("{what}\n  asked:   {question}\n  model:   {expected}\n  library: {found}");
            Some((law::LAWS.len(), told))
        })
    }
}
