//! What the list covers, told from its cases and not from the plan. Each answer must also be the one that the rules give,
//! asked one by one.

mod card;
mod closed;
mod columns;
mod files;
mod head;
mod levels;
mod refusals;
mod rows;
mod sections;
mod strikes;
mod transposed;

use crate::calls::Function;
use crate::list::Case;
use crate::record;
use crate::rules;
use crate::tune::RECORD_BYTES;
use columns::Stored;
use head::Steps;
use sections::Sections;
use std::collections::{BTreeMap, BTreeSet};
use std::path::Path;

const MOST_BYTES: u64 = 3_000_000;

/// So many things are asked for: none may drop out because nothing looks for it.
const ASKED: usize = 10_407;

/// Where a thing must be seen, behind its name: anywhere, from states, or there and along walks from Open.
type Needed = &'static [&'static str];
const ANYWHERE: Needed = &[""];
const FROM_STATES: Needed = &[", from states"];
const BOTH: Needed = &[", from states", ", along walks"];

/// What goes on from case to case.
#[derive(Default)]
struct Lists {
    sections: Sections,
    steps: Steps,
    stored: Stored,
}

#[derive(Default)]
struct Tally {
    /// How often each thing that is asked for was seen.
    things: BTreeMap<String, usize>,
    walking: bool,
    /// The infos met with each command, from states.
    infos: BTreeMap<u8, BTreeSet<u8>>,
    /// The forms whose things are asked for as they are looked at.
    forms: BTreeSet<&'static str>,
    /// Before the name of a thing that a file has.
    prefix: &'static str,
    /// How often something was new.
    news: usize,
}

impl Tally {
    /// Counts a thing where it is asked for.
    fn note(&mut self, what: impl AsRef<str>) {
        let what = format!("{}{}", self.prefix, what.as_ref());
        for place in ["", BOTH[usize::from(self.walking)]] {
            if let Some(times) = self.things.get_mut(&format!("{what}{place}")) {
                *times += 1;
                self.news += usize::from(*times == 1);
            }
        }
    }

    /// Asks for things alike: `{}` in their form stands for each of these.
    fn need<T: ToString>(&mut self, needed: Needed, form: &str, each: impl IntoIterator<Item = T>) {
        for one in each {
            let what = form.replace("{}", &one.to_string());
            for place in needed {
                self.things.entry(format!("{}{what}{place}", self.prefix)).or_default();
            }
        }
    }

    fn family<T: ToString>(&mut self, form: &str, each: impl IntoIterator<Item = T>) {
        self.need(ANYWHERE, form, each);
    }

    /// The same for each of these with each of those, the first of two `{}` being the former.
    fn pairs<S: ToString, T: ToString + Clone>(&mut self, form: &str, these: impl IntoIterator<Item = S>, those: &[T]) {
        for this in these {
            self.family(&form.replacen("{}", &this.to_string(), 1), those.iter().cloned());
        }
    }

    /// Asks for each of these the first time, and counts the one that was seen.
    fn among<T: ToString>(&mut self, form: &'static str, each: impl IntoIterator<Item = T>, seen: impl ToString) {
        if self.forms.insert(form) {
            self.family(form, each);
        }
        self.note(form.replace("{}", &seen.to_string()));
    }

    /// Asks for all of these, and counts those that hold.
    fn ask<const N: usize>(&mut self, needed: Needed, facts: [(bool, &str); N]) {
        for (holds, what) in facts {
            self.need(needed, "{}", [what]);
            if holds {
                self.note(what);
            }
        }
    }

    fn anywhere<const N: usize>(&mut self, facts: [(bool, &str); N]) {
        self.ask(ANYWHERE, facts);
    }

    fn in_states<const N: usize>(&mut self, facts: [(bool, &str); N]) {
        self.ask(FROM_STATES, facts);
    }

    fn both<const N: usize>(&mut self, facts: [(bool, &str); N]) {
        self.ask(BOTH, facts);
    }
}

/// The report, or what is missing.
pub fn report(dir: &Path) -> Result<String, String> {
    let (mut tally, mut lists) = (asked(), Lists::default());
    let cases = record::load(dir)?;
    for (i, case) in cases.iter().enumerate() {
        see(&mut tally, &mut lists, case).map_err(|why| format!("cover: case {i}: {why}"))?;
    }
    let bytes = std::fs::metadata(dir.join(record::LIST)).map_or(0, |list| list.len());
    tally.prefix = "";
    files::see_sizes(&mut tally, &cases);
    tally.anywhere([(bytes <= MOST_BYTES, "a list of at most 3,000,000 bytes")]);
    let line = |(what, times): (&String, &usize)| format!("cover: {what}: {times}\n");
    let mut out: String = tally.things.iter().map(line).collect();
    let asked = tally.things.len();
    tally.things.retain(|_, times| *times == 0);
    if tally.things.is_empty() && asked == ASKED {
        return Ok(out + &format!("cover: {asked} things are in {} cases, {bytes} bytes\n", cases.len()));
    }
    let missing: Vec<String> = tally.things.into_keys().collect();
    let missing = missing.join("; ");
    out += &format!("cover: {asked} things of {ASKED} were asked for; missing: {missing}");
    Err(out)
}

/// The cases of the first so many groups, and of those that the others do not make up for: each that shows something which
/// none before it did is kept, and of these, from the last to the first, each that shows what none behind it does.
pub fn telling(groups: impl Iterator<Item = Vec<Case>>, first: usize) -> Vec<Case> {
    let mut kept = new(groups, first);
    kept[first..].reverse();
    let mut kept = new(kept.into_iter(), first);
    kept[first..].reverse();
    kept.into_iter().flatten().collect()
}

/// The first so many groups, and those that show something which none before them did.
fn new(groups: impl Iterator<Item = Vec<Case>>, first: usize) -> Vec<Vec<Case>> {
    let (mut tally, mut lists) = (asked(), Lists::default());
    let is_telling = |(i, cases): &(usize, Vec<Case>)| {
        let before = tally.news;
        for case in cases {
            see(&mut tally, &mut lists, case).expect("the judge keeps the rules");
        }
        *i < first || tally.news > before
    };
    groups.enumerate().filter(is_telling).map(|(_, cases)| cases).collect()
}

/// A tally that asks for all that no look names.
fn asked() -> Tally {
    let mut tally = Tally::default();
    for needs in [
        files::needs,
        rows::needs,
        refusals::needs,
        strikes::needs,
        closed::needs,
        head::needs,
        columns::needs,
        transposed::needs,
        levels::needs,
    ] {
        needs(&mut tally);
    }
    tally
}

fn see(tally: &mut Tally, lists: &mut Lists, case: &Case) -> Result<(), String> {
    let broken = rules::broken(&case.call);
    let (refusal, first) = (case.answer.refusal(), broken.first().map_or(0, |&(rule, _)| rule));
    let of_file = matches!(case.call.function, Function::Measure | Function::Read) && first == 0;
    (tally.walking, tally.prefix) = (false, if of_file { "file: " } else { "" });
    if refusal != first && !of_file {
        return Err(format!("refused by {refusal}, but broken are {broken:?}"));
    }
    if first > 0 {
        refusals::see(tally, case, &broken);
        transposed::see_refused(tally, case, &broken);
        levels::see_refused(tally, case, &broken)?;
        return match case.call.function {
            Function::HeadStep => lists.steps.refused(tally, case),
            Function::Store | Function::Restore => columns::refused(tally, case),
            _ if first == 14 => closed::see(tally, case),
            _ => Ok(()),
        };
    }
    let opens = matches!(case.call.function, Function::Open | Function::OpenClosed);
    let reads = case.call.function == Function::Read && refusal == 0;
    if opens || reads || case.call.function == Function::Section {
        transposed::see_taken(tally, case)?;
    }
    if opens || case.call.function == Function::Section {
        levels::see_taken(tally, case)?;
    }
    let sections = &mut lists.sections;
    match case.call.function {
        Function::Measure | Function::Read => files::see(tally, case)?,
        Function::Open => sections.opened(tally, case),
        Function::Section => sections.section(tally, case)?,
        Function::Strikes => strikes::see(tally, case, sections.gave(&case.call.slots[0]))?,
        Function::Line => refusals::see_line(tally, case),
        Function::IsClosed | Function::OpenClosed => closed::see(tally, case)?,
        Function::HeadStep => lists.steps.see(tally, case, sections.gave(&case.call.slots[1]))?,
        Function::Store | Function::Restore => {
            let restores = case.call.function == Function::Restore;
            let mut records = case.answer.slots[usize::from(restores)].chunks(RECORD_BYTES);
            let from_sections = records.all(|record| sections.gave(record));
            lists.stored.see(tally, case, from_sections)?;
        }
    }
    Ok(())
}
