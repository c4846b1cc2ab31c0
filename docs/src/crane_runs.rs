//! The crane on random texts: each call held to the model, and the library's crane to single
//! calls of its own planner.

use crate::calls::{compare, Call, Tally, AMPLE, CRANE_AMPLE};
use crate::dice::Dice;
use crate::model::{self, Answer, Outcome, Refusal, MOST_PIECES};
use crate::{cranes, library, progress};
use std::time::Instant;

/// A longer output is not tried with every buffer length.
const SHORT_OUTPUT: usize = 400;

/// What the texts were.
#[derive(Default)]
struct Report {
    planned: u64,
    refused: u64,
    /// Texts of one piece, of 2 to 31, of 32 and of more.
    by_pieces: [u64; 4],
    swept: u64,
}

impl Report {
    fn count_text(&mut self, pieces: usize) {
        let class = match pieces {
            1 => 0,
            2..MOST_PIECES => 1,
            MOST_PIECES => 2,
            _ => 3,
        };
        self.by_pieces[class] += 1;
    }

    fn print(&self) {
        let Report { planned, refused, by_pieces: [one, some, most, more], swept } = self;
        print!("  {} pieces in the texts of at most {MOST_PIECES}: ", planned + refused);
        println!("{planned} planned, {refused} refused, as by single calls of the library");
        print!("  texts by number of pieces: 1: {one}, 2 to {}: {some}, ", MOST_PIECES - 1);
        println!("{MOST_PIECES}: {most}, more: {more}");
        println!("  outputs tried with every buffer length from 0 to past their own: {swept}");
    }
}

/// Where in an output what is said of some piece ends.
fn end_of_a_piece(dice: &mut Dice, output: &[u8]) -> usize {
    let begins = |at: &usize| output[*at..].starts_with(b"plan=");
    let ends: Vec<usize> = (1..output.len()).filter(begins).chain([output.len()]).collect();
    dice.pick(&ends)
}

/// The buffer lengths to try a text with: two, or now and then all up to past the output.
fn lengths(dice: &mut Dice, outcome: &Outcome) -> Vec<usize> {
    let Ok(output) = outcome else {
        return vec![dice.pick(&[0, 1, 24, 1_000, CRANE_AMPLE])];
    };
    let whole = output.len();
    if whole <= SHORT_OUTPUT && dice.once_in(40) {
        return (0..whole + 4).collect();
    }
    let inside = dice.below(whole);
    let end = end_of_a_piece(dice, output);
    let close = dice.pick(&[whole, whole, whole - 1, whole + 1]);
    vec![close, dice.pick(&[0, inside, inside, end, end, whole + inside, CRANE_AMPLE])]
}

/// What the library's planner says to a piece that comes alone.
fn single_call(piece: &[u8]) -> Outcome {
    let mut buffer = [0; AMPLE];
    match library::plan(piece, &mut buffer) {
        Answer { number: 0, length, .. } => Ok(buffer[..AMPLE.min(length as usize)].to_vec()),
        Answer { number, place, .. } => Err(Refusal { number, place }),
    }
}

/// Holds the library's crane to single calls on the pieces, of which there are at most 32.
fn compare_with_single_calls(
    report: &mut Report,
    text: &[u8],
    pieces: &[Vec<u8>],
) -> Result<(), String> {
    let outcomes: Vec<Outcome> = pieces.iter().map(|piece| single_call(piece)).collect();
    let planned = outcomes.iter().filter(|outcome| outcome.is_ok()).count() as u64;
    report.planned += planned;
    report.refused += outcomes.len() as u64 - planned;
    let singles: Vec<u8> = outcomes.into_iter().flat_map(model::said).collect();
    let mut buffer = vec![0; CRANE_AMPLE];
    let answer = library::crane(text, &mut buffer);
    let written = Answer { number: 0, place: 0, length: singles.len() as u64 };
    if answer == written && buffer.starts_with(&singles) {
        return Ok(());
    }
    let (text, singles) = (text.escape_ascii(), singles.escape_ascii());
    let mut words = format!("DIFFERENCE between the crane and single calls, text:\n  \"{text}\"\n");
    words += &format!("single calls say:\n  \"{singles}\"\n");
    words += &format!("the crane: {answer:?}, buffer:\n  \"{}\"\n", buffer.escape_ascii());
    Err(words)
}

fn compare_text(
    dice: &mut Dice,
    tally: &mut Tally,
    report: &mut Report,
    text: &[u8],
) -> Result<(), String> {
    let outcome = model::craned(text);
    let lengths = lengths(dice, &outcome);
    report.swept += (lengths.len() > 2) as u64;
    for length in lengths {
        compare(tally, Call::Crane, text, &outcome, length)?;
    }
    let pieces = model::pieces_of(text);
    report.count_text(pieces.len());
    if pieces.len() <= MOST_PIECES {
        compare_with_single_calls(report, text, &pieces)?;
    }
    Ok(())
}

pub fn run(dice: &mut Dice, count: u64) -> Result<(), String> {
    let (mut tally, mut report, started) = (Tally::default(), Report::default(), Instant::now());
    for done in 1..=count {
        let text = cranes::any(dice);
        compare_text(dice, &mut tally, &mut report, &text)?;
        progress("crane texts", done, count, started);
    }
    println!("{count} crane texts, {} calls, no difference", tally.calls());
    tally.print_crane();
    report.print();
    Ok(())
}
