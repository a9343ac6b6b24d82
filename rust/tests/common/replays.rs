//! What `nx record`, `nx script` and `nx replay` tell: calls as lines of a script, what they
//! answer over what is lent, and why a recording is refused.

use super::recordings::*;
use super::*;
use second::boundary::{ANSWER, STATE};

/// The registers' names, in the order of Table 3.
pub const REGISTERS: [&str; 21] = [
    "prefetch",
    "walk-status",
    "control",
    "fault-address-high",
    "fault-address-low",
    "fault-status",
    "acknowledge",
    "base-high",
    "base-low",
    "lock",
    "load",
    "cam-high",
    "cam-low",
    "ram-high",
    "ram-low",
    "global-flush",
    "entry-flush",
    "read-cam-high",
    "read-cam-low",
    "read-ram-high",
    "read-ram-low",
];

/// A call as a line of a script has it.
pub fn line(call: &[u8]) -> String {
    let (second, address, value) = (call[1], word(call, 4), word(call, 8));
    let register = match REGISTERS.get(usize::from(second) / 4) {
        Some(name) if second.is_multiple_of(4) => (*name).into(),
        _ => format!("{second:02X}"),
    };
    match call[0] {
        boundary::WRITE if (second, value) == (ACKNOWLEDGE, 1) => "acknowledge".into(),
        boundary::WRITE => format!("write {register} {value:X}"),
        boundary::READ => format!("read {register}"),
        boundary::REQUEST => format!("request {} {address:06X}", ["r", "w"][usize::from(second)]),
        boundary::DROP => "drop".into(),
        _ => format!("shift {address:06X}"),
    }
}

/// Calls as a script.
pub fn script(calls: &[u8]) -> String {
    calls.chunks(RECORD).map(|call| line(call) + "\n").collect()
}

/// A number of things.
fn some(count: usize, thing: &str) -> String {
    format!("{count} {thing}{}", if count == 1 { "" } else { "s" })
}

/// How many calls and blocks a recording of so many calls has.
pub fn counted(calls: usize) -> String {
    format!("{}, {}", some(calls, "call"), some(calls.div_ceil(FULL), "block"))
}

/// What `nx record` tells of a recording of so many calls.
pub fn written(path: &str, calls: usize) -> String {
    format!("{path}: {}, {} bytes\n", counted(calls), BLOCK * calls.div_ceil(FULL))
}

/// What the unit answers, by its number and its value.
fn answered((number, value): (u32, i64)) -> String {
    match number {
        0 => "done".into(),
        21 => "fault 21 translation".into(),
        22 => "fault 22 miss".into(),
        23 => "fault 23 permission".into(),
        24 => "fault 24 prefetch".into(),
        100 => format!("{value:08X}"),
        101 => format!("{value:04X}"),
        102 => value.to_string(),
        refusal => format!("refused {refusal}"),
    }
}

/// Where a word came from.
fn source(place: u32) -> String {
    let offset = place & 0xFFF_FFFF;
    match place >> 28 {
        0 => "-".into(),
        1 => format!("on-chip  {offset:04X}"),
        _ => format!("external {offset:04X}"),
    }
}

/// The head of a page of so many calls.
pub fn head(calls: usize) -> String {
    let columns = "  number   call                           unit answers          from";
    format!("The recording: {}\n{columns}\n", counted(calls))
}

/// The rows of calls by what the second program answers over what is lent.
pub fn rows(calls: &[u8], said: &[u8]) -> String {
    let row = |(at, call)| {
        let (answer, from) = (answered(answer(said, at)), source(from(said, at)));
        format!("  {at:<9}{:<31}{answer:<22}{from}\n", line(call))
    };
    calls.chunks(RECORD).enumerate().map(row).collect()
}

/// A figure: all its digits up to the second behind the point, and its bits.
fn figure(figure: f64) -> String {
    let digits = format!("{figure:.1100}");
    let point = digits.find('.').expect("a point");
    format!("{}  bits {:016X}", &digits[..point + 3], figure.to_bits())
}

/// Meters and bill of a state.
pub fn costs(state: View) -> String {
    format!(
        "\nThe meters and the bill\n  fresh requests    {}\n  retries           {}\n\
         \x20 words read        {}\n  nanoseconds paid  {}\n  smoothed misses   {}\n",
        state.fresh(),
        state.retries(),
        state.words(),
        figure(state.total()),
        figure(state.misses()),
    )
}

/// What the second program says of calls from a fresh device: the answers, and the state
/// behind them.
pub fn said(lending: &Lending, calls: &[u8]) -> Vec<u8> {
    let mut said = vec![0; calls.len() / RECORD * ANSWER + STATE];
    assert_eq!(Second.run(lending, calls, &mut said), said.len() as u64);
    said
}

/// The page of `nx replay`.
pub fn page(lending: &Lending, calls: &[u8]) -> String {
    let said = said(lending, calls);
    let state = &said[said.len() - STATE..];
    head(calls.len() / RECORD) + &rows(calls, &said) + &costs(View(state))
}

/// Why a recording is refused: its first bad block, and what is wrong with that first.
pub fn flaw(recording: &[u8]) -> Option<String> {
    let blocks = recording.len().div_ceil(BLOCK);
    let index = (0..blocks).find(|&index| !faults(recording, index).is_empty())?;
    let faults = faults(recording, index);
    let block = &recording[BLOCK * index..];
    let wrong = |fault: &&str| faults.contains(fault);
    let first = ["too many", "short", "after one not full", "check", "number"];
    let then = ["count of 0", "count over 42", "record", "unused byte"];
    let said = match *first.iter().chain(&then).find(|fault| wrong(fault)).expect("a fault") {
        "too many" => "past the 65536th".into(),
        "short" => "shorter than 512 bytes".into(),
        "after one not full" => "follows a block that is not full".into(),
        "check" => "its check is wrong".into(),
        "number" => format!("its number is {}", half(block, 2)),
        "record" => {
            let bad = block[4..CHECK_AT].chunks(RECORD).position(|record| !as_said(record));
            format!("call {} is not as said", bad.expect("a bad one"))
        }
        "unused byte" => "a byte behind its calls is not zero".into(),
        _ => format!("it has {} calls", half(block, 0)),
    };
    Some(format!("block {index}: {said}"))
}
