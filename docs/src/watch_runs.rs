//! The board to watch on random texts: each call held to the model.

use crate::calls::{compare, Call, Tally};
use crate::dice::Dice;
use crate::model::{Outcome, Refusal};
use crate::watches::{self, Watch, MOST_LENGTHS, MOST_TICKS, WATCH_ROOM};
use crate::{progress, watch_texts};
use std::time::Instant;

/// A longer output is not tried with every buffer length.
const SHORT_OUTPUT: usize = 400;
/// So many texts meet each refusal at each kind of line.
const MANY_TEXTS: u64 = 5_000;

/// The lines of a text by what is expected there: refusals are counted for each. The last are the
/// lengths, with what stands after them.
const LINES: [&str; 11] = [
    "table", "deadline", "hold", "points", "delay", "allow", "rank", "release", "ticks", "lengths",
    "length",
];
const DELAY: usize = 4;
const ALLOW: usize = 5;

/// The number on a line that has been accepted, else 0.
fn number_on(lines: &[&[u8]], line: usize) -> usize {
    let digits = lines.get(line - 1).and_then(|line| line.split(|&byte| byte == b'=').nth(1));
    let digits = digits.and_then(|digits| std::str::from_utf8(digits).ok());
    digits.and_then(|digits| digits.parse().ok()).unwrap_or(0)
}

/// Which of these a line is, the first that is not accepted.
fn kind_of_line(text: &[u8], line: usize) -> usize {
    let lines: Vec<&[u8]> = text.split(|&byte| byte == b'\n').collect();
    if line <= 3 {
        return 0;
    }
    let (tasks, mut taken) = (number_on(&lines, 2), 3);
    for _ in 0..tasks {
        // The line of the points is the ninth of a row, and each of them has two.
        match line - taken {
            3 => return 1,
            1..=7 => return 0,
            8 => return 2,
            9 => return 3,
            _ => {}
        }
        taken += 9;
        let points = number_on(&lines, taken);
        if line <= taken + 2 * points {
            return if (line - taken) % 2 == 1 { DELAY } else { ALLOW };
        }
        taken += 2 * points;
    }
    match line - taken {
        past if past <= tasks => 6,
        past if past <= 2 * tasks => 7,
        past if past == 2 * tasks + 1 => 8,
        past if past == 2 * tasks + 2 => 9,
        _ => 10,
    }
}

/// What the texts were.
#[derive(Default)]
struct Report {
    /// Refusals 1, 2 and 3 by the kind of their line, and 11 at a delay and at an allow.
    refused: [[u64; LINES.len()]; 3],
    unsorted: [u64; 2],
    /// Runs of a board with points in some row.
    curved: u64,
    jobs: u64,
    /// Jobs that finished after the next release of their task, and runs with such jobs.
    overran: u64,
    overrunning: u64,
    /// Runs in which no job finishes.
    empty: u64,
    /// Runs of one tick, and of as many as there can be.
    shortest: u64,
    longest: u64,
    /// Runs without a list, with the longest, and with a length for a job past the last tick.
    unlisted: u64,
    listed: u64,
    past: u64,
    /// Runs in which two jobs that have their lengths from the list are released on one tick.
    together: u64,
    /// Outputs longer than the program's buffer.
    too_long: u64,
    swept: u64,
}

impl Report {
    fn count_refusal(&mut self, text: &[u8], Refusal { number, place }: Refusal) {
        let kind = kind_of_line(text, place.max(1) as usize);
        match number {
            1..=3 => self.refused[number as usize - 1][kind] += 1,
            11 => self.unsorted[kind - DELAY] += 1,
            _ => {}
        }
    }

    fn count_run(&mut self, watch: &Watch, output: &[u8]) {
        let jobs = watches::first_jobs(&watch.tasks(), watch.lengths.len());
        let printed = output.iter().filter(|&&byte| byte == b'\n').count() as u64 / 3;
        self.jobs += printed;
        let overran = overran(watch, output);
        self.overran += overran;
        self.overrunning += (overran > 0) as u64;
        self.curved += watch.table.rows.iter().any(|row| !row.curve.is_empty()) as u64;
        self.empty += (printed == 0) as u64;
        self.shortest += (watch.ticks == 1) as u64;
        self.longest += (watch.ticks == MOST_TICKS) as u64;
        self.unlisted += jobs.is_empty() as u64;
        self.listed += (jobs.len() as u64 == MOST_LENGTHS) as u64;
        self.past += jobs.last().is_some_and(|job| job.tick >= watch.ticks) as u64;
        self.together += jobs.windows(2).any(|pair| pair[0].tick == pair[1].tick) as u64;
        self.too_long += (output.len() > WATCH_ROOM) as u64;
    }

    fn print(&self) {
        let Report { jobs, empty, shortest, longest, unlisted, listed, past, .. } = self;
        println!("  refusals by what is expected on the line, {}:", LINES.join(", "));
        let counts = self.refused.iter().enumerate();
        let counts: Vec<_> = counts.map(|(at, kinds)| format!("{}: {kinds:?}", at + 1)).collect();
        println!("    {}", counts.join(", "));
        println!("    11, at a delay and at an allow: {:?}", self.unsorted);
        print!("  {jobs} jobs printed; runs of 1 tick: {shortest}, of {MOST_TICKS}: {longest}");
        println!(", with points in some row: {}", self.curved);
        print!("  {} jobs finished after the next release of their task, ", self.overran);
        println!("in {} runs", self.overrunning);
        print!("  runs in which no job finishes: {empty}, with more than {WATCH_ROOM} bytes of ");
        println!("lines: {}", self.too_long);
        print!(
            "  runs without lengths: {unlisted}, with {MOST_LENGTHS}: {listed}, with one for a "
        );
        println!("job past the last tick: {past}, for two jobs of one tick: {}", self.together);
        println!(
            "  outputs tried with every buffer length from 0 to past their own: {}",
            self.swept
        );
    }

    /// That the texts tried what they should.
    fn complete(&self, tally: &Tally) -> Result<(), String> {
        let Report { empty, shortest, longest, unlisted, listed, past, together, too_long, .. } =
            self;
        if let Some(number) = tally.not_met_by_watch() {
            return Err(format!("NOT MET: number {number} of the board to watch\n"));
        }
        let runs = [empty, shortest, longest, unlisted, listed, past, together, too_long];
        let unmet = runs.contains(&&0) || self.unsorted.contains(&0);
        let unmet = unmet || self.curved == 0 || self.overran == 0;
        if unmet || self.refused.as_flattened().contains(&0) {
            return Err("NOT MET: a kind of run or of line that is counted above\n".to_string());
        }
        Ok(())
    }
}

/// How many of the jobs that are printed finished after the next release of their task.
fn overran(watch: &Watch, output: &[u8]) -> u64 {
    let lines: Vec<&[u8]> = output.split(|&byte| byte == b'\n').collect();
    let period = |task: u64| watch.table.rows.iter().find(|row| row.task == task);
    let late = |job: &&[&[u8]]| {
        let [task, release, finish] = [1, 2, 3].map(|line| number_on(job, line) as u64);
        period(task).is_some_and(|row| finish > release + row.period)
    };
    lines.chunks_exact(3).filter(late).count() as u64
}

/// The buffer lengths to try a text with: two, or now and then all up to past the output.
fn lengths(dice: &mut Dice, outcome: &Outcome) -> Vec<usize> {
    let Ok(output) = outcome else {
        let any = dice.below(200);
        return vec![dice.pick(&[0, 1, 24, any, any, 1_000, WATCH_ROOM])];
    };
    let whole = output.len();
    if whole <= SHORT_OUTPUT && dice.once_in(40) {
        return (0..whole + 4).collect();
    }
    let inside = dice.below(whole + 1);
    let close = dice.pick(&[whole, whole, whole.saturating_sub(1), whole + 1]);
    vec![close, dice.pick(&[0, inside, inside, whole + inside, WATCH_ROOM, WATCH_ROOM])]
}

fn compare_text(
    dice: &mut Dice,
    tally: &mut Tally,
    report: &mut Report,
    text: &[u8],
) -> Result<(), String> {
    let watch = watches::read_watch(text);
    let outcome = watch.as_ref().map_err(|refusal| *refusal).and_then(Watch::outcome);
    match (&watch, &outcome) {
        (Ok(watch), Ok(output)) => report.count_run(watch, output),
        (_, Err(refusal)) => report.count_refusal(text, *refusal),
        _ => {}
    }
    let lengths = lengths(dice, &outcome);
    report.swept += (lengths.len() > 2) as u64;
    lengths.into_iter().try_for_each(|length| compare(tally, Call::Watch, text, &outcome, length))
}

pub fn run(dice: &mut Dice, count: u64) -> Result<(), String> {
    let (mut tally, mut report, started) = (Tally::default(), Report::default(), Instant::now());
    for done in 1..=count {
        let text = watch_texts::any(dice);
        compare_text(dice, &mut tally, &mut report, &text)?;
        progress("watch texts", done, count, started);
    }
    println!("{count} watch texts, {} calls, no difference", tally.calls());
    tally.print_watch();
    report.print();
    if count < MANY_TEXTS {
        return Ok(());
    }
    report.complete(&tally)
}
