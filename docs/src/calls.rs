//! One call of the library held to the model: the answer and every byte of the buffer.

use crate::model::{self, Answer, Outcome, Row, MOST_PIECES};
use crate::{library, watches};
use std::fmt::Write;

/// A buffer longer than any plan.
pub const AMPLE: usize = 2_048;

/// A buffer longer than any output of the crane.
pub const CRANE_AMPLE: usize = MOST_PIECES * AMPLE;

/// Bytes before and after the lent buffer that no call may touch.
const GUARD: usize = 16;

/// What the board to watch may refuse.
const WATCH_REFUSALS: [usize; 9] = [1, 2, 3, 4, 5, 6, 7, 9, 11];

/// What the planner and the reviewer may refuse, each but for 6 and 7, or for 8.
const TABLE_REFUSALS: [usize; 10] = [1, 2, 3, 4, 5, 6, 7, 8, 9, 11];

/// One more than the largest number of a refusal.
const NUMBERS: usize = 12;

#[derive(Clone, Copy)]
pub enum Call {
    Plan,
    Review,
    Crane,
    Watch,
}

impl Call {
    pub fn by_model(self) -> fn(&[u8]) -> Outcome {
        match self {
            Call::Plan => model::planned,
            Call::Review => model::reviewed,
            Call::Crane => model::craned,
            Call::Watch => watches::watched,
        }
    }

    /// The same in the buffer that the program has, which only the board to watch may fill.
    pub fn by_program(self) -> fn(&[u8]) -> Outcome {
        match self {
            Call::Watch => watches::watched_in_program,
            _ => self.by_model(),
        }
    }

    /// The bytes of its input that the program takes.
    pub fn takes(self) -> usize {
        match self {
            Call::Plan | Call::Review => model::TABLE_TAKES,
            Call::Crane => model::CRANE_TAKES,
            Call::Watch => watches::WATCH_TAKES,
        }
    }

    fn by_library(self) -> fn(&[u8], &mut [u8]) -> Answer {
        match self {
            Call::Plan => library::plan,
            Call::Review => library::review,
            Call::Crane => library::crane,
            Call::Watch => library::watch,
        }
    }

    fn name(self) -> &'static str {
        match self {
            Call::Plan => "planner",
            Call::Review => "reviewer",
            Call::Crane => "crane",
            Call::Watch => "board to watch",
        }
    }
}

/// How often each number was answered, 0 for a written text.
#[derive(Default)]
pub struct Tally {
    planner: [u64; NUMBERS],
    reviewer: [u64; NUMBERS],
    crane: [u64; NUMBERS],
    watch: [u64; NUMBERS],
}

impl Tally {
    fn count(&mut self, call: Call, number: u64) {
        let counts = match call {
            Call::Plan => &mut self.planner,
            Call::Review => &mut self.reviewer,
            Call::Crane => &mut self.crane,
            Call::Watch => &mut self.watch,
        };
        counts[number as usize] += 1;
    }

    pub fn calls(&self) -> u64 {
        [self.planner, self.reviewer, self.crane, self.watch].as_flattened().iter().sum()
    }

    pub fn print(&self) {
        for (name, counts) in [("planner", &self.planner), ("reviewer", &self.reviewer)] {
            let refusals = TABLE_REFUSALS.map(|number| (number, counts[number]));
            let refusals = refusals.map(|(number, count)| format!(", refusal {number}: {count}"));
            println!("  {name}: plan: {}{}", counts[0], refusals.concat());
        }
    }

    pub fn print_crane(&self) {
        let [written, without_room, of_too_many] = [0, 9, 10].map(|number| self.crane[number]);
        println!(
            "  crane: written: {written}, refusal 9: {without_room}, refusal 10: {of_too_many}"
        );
    }

    pub fn print_watch(&self) {
        let refusals = WATCH_REFUSALS.map(|number| (number, self.watch[number]));
        let refusals = refusals.map(|(number, count)| format!(", refusal {number}: {count}"));
        println!("  watch: written: {}{}", self.watch[0], refusals.concat());
    }

    /// A number that the board to watch can answer and did not.
    pub fn not_met_by_watch(&self) -> Option<usize> {
        [0].into_iter().chain(WATCH_REFUSALS).find(|&number| self.watch[number] == 0)
    }
}

/// An answer, and the memory in and around the buffer after the call.
#[derive(PartialEq)]
struct After {
    answer: Answer,
    memory: Vec<u8>,
}

/// Calls with a lent buffer in the middle of guarded memory. The bytes there are above 127, as no
/// byte of a plan is, so that every byte written shows.
fn after_call(length: usize, call: impl FnOnce(&mut [u8]) -> Answer) -> After {
    let mut memory: Vec<u8> = (0..length + 2 * GUARD).map(|at| 128 | (at * 29) as u8).collect();
    let answer = call(&mut memory[GUARD..GUARD + length]);
    After { answer, memory }
}

fn describe(call: Call, text: &[u8], model: &After, library: &After) -> String {
    let length = model.memory.len() - 2 * GUARD;
    let mut words = format!("DIFFERENCE in the {}, buffer of {length} bytes, text:\n", call.name());
    let _ = writeln!(words, "  \"{}\"", text.escape_ascii());
    for (who, after) in [("model", model), ("library", library)] {
        let Answer { number, place, length } = after.answer;
        let _ = writeln!(words, "{who}: number {number}, place {place}, length {length}, memory:");
        let _ = writeln!(words, "  \"{}\"", after.memory.escape_ascii());
    }
    let mut bytes = model.memory.iter().zip(&library.memory);
    if let Some(at) = bytes.position(|(one, other)| one != other) {
        let _ = writeln!(words, "first different byte: {} of the buffer", at as i64 - GUARD as i64);
    }
    words
}

/// Holds the library to an outcome that the model gave for the text, with a buffer of `length`;
/// the error describes the difference.
pub fn compare(
    tally: &mut Tally,
    call: Call,
    text: &[u8],
    outcome: &Outcome,
    length: usize,
) -> Result<(), String> {
    let model = after_call(length, |buffer| model::written(outcome, buffer));
    let library = after_call(length, |buffer| call.by_library()(text, buffer));
    tally.count(call, model.answer.number);
    if model != library {
        return Err(describe(call, text, &model, &library));
    }
    Ok(())
}

/// A rank of a plan: which row of the table stands there, and the lines written for it.
pub struct Rank {
    pub index: usize,
    pub best: u64,
    pub worst: u64,
}

/// The ranks of a plan's text, from the highest.
pub fn ranks_in(plan: &[u8], rows: &[Row]) -> Option<Vec<Rank>> {
    let plan = std::str::from_utf8(plan).ok()?;
    let values: Vec<&str> = plan.lines().filter_map(|line| Some(line.split_once('=')?.1)).collect();
    let rank = |values: &[&str]| {
        let task = values.get(1)?.parse().ok()?;
        let index = rows.iter().position(|row| row.task == task)?;
        Some(Rank {
            index,
            best: values.get(2)?.parse().ok()?,
            worst: values.get(3)?.parse().ok()?,
        })
    };
    values.get(3..)?.chunks(6).map(rank).collect()
}
