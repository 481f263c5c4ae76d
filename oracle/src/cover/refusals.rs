//! Refusals by rules 9 to 17 and by 255: each way to break them alone, and the order in which they are asked.

use super::{Tally, levels};
use crate::calls::Function;
use crate::card::unit;
use crate::list::Case;
use crate::rules;
use crate::tune::le16;

/// Those of which each way to break a rule is asked by itself.
const OF_FUNCTION: [Function; 5] = [
    Function::IsClosed,
    Function::OpenClosed,
    Function::HeadStep,
    Function::Store,
    Function::Restore,
];

pub fn needs(tally: &mut Tally) {
    tally.family("open by rule {}", ["9", "9 before 10", "255", "255 before 9 before 10"]);
    tally.family("is_closed by rule {}", ["9"]);
    let of_two = ["255 before 9", "9 before 10", "9 before 14", "10 before 14"];
    tally.family(
        "open_closed by rule {}",
        ["255", "9", "10", "14"].into_iter().chain(of_two),
    );
    tally.family(
        "open_closed by rule {}",
        ["9 before 10 before 14", "255 before 9 before 10 before 14"],
    );
    tally.family(
        "head_step by rule {}",
        ["255", "15", "13", "255 before 15", "15 before 13"],
    );
    tally.family("store by rule {}", ["16"]);
    tally.family("restore by rule {}", ["16"]);
    tally.family("section by rule {}", ["9", "9 before 11", "9 before 12"]);
    tally.family("section by rule {}", ["11 before 12", "9 before 11 before 12"]);
    tally.family("section by rule {}", levels::ORDERS);
    tally.family("section by rule {}", ["255", "255 before 9"]);
    tally.family("measure by rule {}", ["255", "255, file of 0 bytes"]);
    tally.family("read by rule {}", ["255", "255, file of 0 bytes"]);
    tally.family("rules 12: {}", ["n above 65,535; output too short"]);
    tally.family("strikes into {} bytes", [31, 32]);
    tally.family("line into {} bytes", [63, 64]);
}

/// What is broken alone, and which rules the one that answers goes before.
pub fn see(tally: &mut Tally, case: &Case, broken: &[(u8, &str)]) {
    let (call, name) = (&case.call, case.call.function.name());
    let in_rooms = |what| what != rules::ROWS_ABOVE && what != rules::RECORDS_ABOVE;
    for (rule, what, _) in rules::facts(call).into_iter().filter(|fact| in_rooms(fact.1)) {
        tally.family(&format!("rule {rule}: {{}}"), [what]);
        if OF_FUNCTION.contains(&call.function) {
            tally.family(&format!("{name} by rule {rule}: {{}}"), [what]);
        }
    }
    let mut rules: Vec<String> = broken.iter().map(|(rule, _)| rule.to_string()).collect();
    rules.dedup();
    let no_file = call.slots[0].is_empty() && rules == ["255"];
    let empty = if no_file { ", file of 0 bytes" } else { "" };
    tally.note(format!("{name} by rule {}{empty}", rules.join(" before ")));
    let names: Vec<&str> = broken.iter().map(|&(_, what)| what).collect();
    match names[..] {
        [what] => {
            tally.note(format!("rule {}: {what}", rules[0]));
            tally.note(format!("{name} by rule {}: {what}", rules[0]));
        }
        _ if rules.len() == 1 => tally.note(format!("rules {}: {}", rules[0], names.join("; "))),
        _ => {}
    }
    if rules[0] == "13" {
        tally.note(format!("{name} into {} bytes", call.slots[1].len()));
    }
    let spare = rules[0] == "11" && call.slots[3][15] != 0 && call.slots[3][22..24] != [0; 2];
    tally.anywhere([(spare, "state refused with bytes that are not read")]);
    see_remainder(tally, (names == [rules::REMAINDER]).then_some(&call.slots[3]));
}

/// A state with nothing wrong but its remainder.
fn see_remainder(tally: &mut Tally, state: Option<&Vec<u8>>) {
    let (unit, remainder) = state.map_or((1, 0), |state| (unit(state[11]), u32::from(le16(state, 20))));
    let low = remainder & 255;
    tally.anywhere([
        (remainder == unit, "remainder 2 * tempo refused"),
        (remainder > unit && low < unit, "remainder refused for its high byte"),
        (remainder > 32_767, "remainder refused above 32,767"),
    ]);
}

/// A record that Line takes.
pub fn see_line(tally: &mut Tally, case: &Case) {
    let [record, output, ..] = &case.call.slots;
    tally.note(format!("line into {} bytes", output.len()));
    tally.anywhere([
        (output.len() > 64, "line into more than 64 bytes"),
        (record.iter().all(|&byte| byte == 255), "line of the largest numbers"),
        (record.iter().all(|&byte| byte == 0), "line of 0s"),
    ]);
}
