//! Holds the proved planner, reviewer, crane and board to watch to the model of documents 01 and 02,
//! and the plans to the board. See `docs/TESTING.md`.
//!
//! Built with `--cfg model_only` it needs no library: `plain.rs` stands in for it.

// The flag is given to rustc by hand, so that no list of known flags names it.
#![allow(unexpected_cfgs)]

mod board_runs;
mod boards;
mod calls;
mod crane_runs;
mod cranes;
mod dice;
#[cfg(not(model_only))]
mod library;
#[cfg(model_only)]
#[path = "plain.rs"]
mod library;
mod model;
mod tables;
mod texts;
mod watch_runs;
mod watch_texts;
mod watches;

use calls::{compare, Call, Tally, AMPLE};
use dice::Dice;
use model::{Outcome, Row, Table, MOST_TASKS};
use std::io::{Read, Write};
use std::process::ExitCode;
use std::time::Instant;

/// A plan longer than this is seldom tried with every buffer length.
const SHORT_PLAN: usize = 200;
/// How often a table's conditions are tightened at most.
const MOST_SQUEEZES: u64 = 3;
/// A table with hundreds of jobs of one task in the time of another's has so many tasks at most.
const MOST_CROWDED: usize = 5;
/// Some of the plans of so many tables have tasks that overrun their periods.
const MANY_TABLES: u64 = 200;

const USAGE: &str =
    "usage: compare [--texts N] [--tables N] [--boards N] [--cranes N] [--crowded N]
               [--watches N] [--seed S]
         20000 texts, 1200 tables, 100 boards, 4000 cranes, 200 crowded tables, 5000 watches and
         seed 1 where nothing else is said
       compare --says plan|review|crane|watch    print what the model says to standard input";

/// A line ten times in a run, so that a long one is seen to go on.
fn progress(what: &str, done: u64, of: u64, started: Instant) {
    if done * 10 / of != (done - 1) * 10 / of {
        println!("  {done} of {of} {what}, {} s", started.elapsed().as_secs());
        // The line is to be seen at once even where the output is a file or a pipe.
        let _ = std::io::stdout().flush();
    }
}

// ---- Texts ------------------------------------------------------------------------------

/// The buffer lengths to try a text with: one, or now and then all up to past the plan.
fn lengths(dice: &mut Dice, outcome: &Outcome) -> Vec<usize> {
    let Ok(plan) = outcome else {
        return vec![dice.pick(&[0, 1, 7, 100, AMPLE])];
    };
    let whole = plan.len();
    if dice.once_in(if whole <= SHORT_PLAN { 50 } else { 2_000 }) {
        return (0..whole + 4).collect();
    }
    let inside = dice.below(whole);
    vec![dice.pick(&[whole, whole, whole - 1, whole + 1, inside, whole + inside, AMPLE])]
}

/// Both calls on one text; how many of its plans were tried with every buffer length.
fn compare_text(
    dice: &mut Dice,
    tally: &mut Tally,
    overruns: &mut Overruns,
    text: &[u8],
) -> Result<u64, String> {
    let mut swept = 0;
    for call in [Call::Plan, Call::Review] {
        let outcome = call.by_model()(text);
        if let (Call::Plan, Ok(plan)) = (call, &outcome) {
            overruns.count_plan(text, plan);
        }
        let lengths = lengths(dice, &outcome);
        swept += (lengths.len() > 1) as u64;
        for length in lengths {
            compare(tally, call, text, &outcome, length)?;
        }
    }
    Ok(swept)
}

fn run_texts(dice: &mut Dice, count: u64) -> Result<(), String> {
    let (mut tally, mut swept, started) = (Tally::default(), 0, Instant::now());
    let mut overruns = Overruns::default();
    for done in 1..=count {
        let text = texts::any(dice);
        swept += compare_text(dice, &mut tally, &mut overruns, &text)?;
        progress("texts", done, count, started);
    }
    println!("{count} texts, {} calls, no difference", tally.calls());
    tally.print();
    overruns.print();
    println!("  plans tried with every buffer length from 0 to past their own: {swept}");
    Ok(())
}

// ---- Tables -----------------------------------------------------------------------------

/// The planner on a table; the order that both found, if there is one.
fn compare_plan(tally: &mut Tally, table: &Table) -> Result<Option<Vec<usize>>, String> {
    let text = tables::text(table);
    let outcome = model::planned(&text);
    compare(tally, Call::Plan, &text, &outcome, AMPLE)?;
    let ranks = outcome.ok().and_then(|plan| calls::ranks_in(&plan, &table.rows));
    Ok(ranks.map(|ranks| ranks.iter().map(|rank| rank.index).collect()))
}

/// The reviewer on a table and an order.
fn compare_review(tally: &mut Tally, table: &Table, order: &[usize]) -> Result<(), String> {
    let mut text = tables::text(table);
    for &index in order {
        text.extend(format!("rank={}\n", table.rows[index].task).into_bytes());
    }
    compare(tally, Call::Review, &text, &model::reviewed(&text), AMPLE)
}

/// The planner on a table, and the reviewer on the plan's order (by period where there is none)
/// and on another at random; the plan's order.
fn compare_table(
    dice: &mut Dice,
    tally: &mut Tally,
    table: &Table,
) -> Result<Option<Vec<usize>>, String> {
    let chosen = compare_plan(tally, table)?;
    let mut order: Vec<usize> = (0..table.rows.len()).collect();
    order.sort_by_key(|&index| table.rows[index].period);
    compare_review(tally, table, chosen.as_ref().unwrap_or(&order))?;
    dice.shuffle(&mut order);
    compare_review(tally, table, &order)?;
    Ok(chosen)
}

/// Brings the condition of one task of an order close to what the task has there: by a curve if it
/// has one, else by the beta, which is then the boundary or just below.
fn tighten_a_condition(dice: &mut Dice, table: &mut Table, order: &[usize]) {
    let rank = dice.below(order.len());
    if !table.rows[order[rank]].curve.is_empty() {
        return tables::set_a_curve(dice, table, order, rank, false);
    }
    let ranked: Vec<&Row> = order.iter().map(|&index| &table.rows[index]).collect();
    let (above, below) = (&ranked[..rank], &ranked[rank + 1..]);
    let boundary = tables::boundary(table.switch, ranked[rank], above, below);
    table.rows[order[rank]].beta = boundary.map_or(0, |beta| beta - dice.between(0, 1));
}

/// Brings the deadline of one task of an order to its latest response there, or one tick below.
fn tighten_a_deadline(dice: &mut Dice, table: &mut Table, order: &[usize]) {
    let rank = dice.below(order.len());
    let latest = tables::latest_in(table, order, rank).unwrap_or(1);
    table.rows[order[rank]].deadline = (latest - dice.between(0, 1)).max(1);
}

/// The planner on a table whose conditions and deadlines are tightened one after another, so that
/// ever fewer orders are stable and each table stands on a boundary or near it; how many tables that
/// were.
fn squeeze(
    dice: &mut Dice,
    tally: &mut Tally,
    mut table: Table,
    mut order: Option<Vec<usize>>,
) -> Result<u64, String> {
    let mut steps = 0;
    while let Some(stable) = order.filter(|_| steps < MOST_SQUEEZES) {
        match dice.below(3) {
            0 => tighten_a_deadline(dice, &mut table, &stable),
            _ => tighten_a_condition(dice, &mut table, &stable),
        }
        order = compare_plan(tally, &table)?;
        steps += 1;
    }
    Ok(steps)
}

fn run_tables(dice: &mut Dice, count: u64) -> Result<(), String> {
    let (mut tally, started) = (Tally::default(), Instant::now());
    let (mut accepted, mut with_switch, mut squeezed) = ([0; MOST_TASKS], 0, 0);
    let (mut curved, mut overruns) = (Curved::default(), Overruns::default());
    for done in 1..=count {
        let tasks = (done as usize - 1) % MOST_TASKS;
        let family = dice.pick(&tables::FAMILIES);
        let table = tables::any(dice, family, tasks + 1, false);
        let order = compare_table(dice, &mut tally, &table)?;
        accepted[tasks] += order.is_some() as u64;
        with_switch += (table.switch > 0 && order.is_some()) as u64;
        curved.count(&table, order.is_some());
        overruns.count(&table, order.as_deref().unwrap_or(&[]));
        squeezed += squeeze(dice, &mut tally, table, order)?;
        progress("tables", done, count, started);
    }
    print!("{count} tables of 1 to {MOST_TASKS} tasks and {squeezed} made from them, ");
    println!("{} calls, no difference", tally.calls());
    tally.print();
    println!("  with a stable order, by number of tasks: {accepted:?}");
    println!("  of these with a switch above 0: {with_switch}");
    curved.print();
    overruns.print();
    overruns.complete(count)
}

/// Tables with an order and without, by how many of their rows have points: none, some or all.
#[derive(Default)]
struct Curved {
    ordered: [u64; 3],
    others: [u64; 3],
}

impl Curved {
    fn count(&mut self, table: &Table, ordered: bool) {
        let with_points = table.rows.iter().filter(|row| !row.curve.is_empty()).count();
        let kind = match with_points {
            0 => 0,
            all if all == table.rows.len() => 2,
            _ => 1,
        };
        let counts = if ordered { &mut self.ordered } else { &mut self.others };
        counts[kind] += 1;
    }

    fn print(&self) {
        let Curved { ordered, others } = self;
        print!("  with points in no row, in some, in all: {ordered:?} with a stable order, ");
        println!("{others:?} without");
    }
}

/// How tasks stand to their deadlines and periods in the plans that were compared.
#[derive(Default)]
struct Overruns {
    /// Tasks with a deadline below their period, and past it.
    short: u64,
    long: u64,
    /// Tasks whose latest response is just their deadline.
    just: u64,
    /// Tasks whose first job in a busy interval is not done by the next release: w(0) is past the
    /// period. And those of them that a later job has the latest response of.
    overran: u64,
    later: u64,
    /// The most jobs and the most ticks of a busy interval.
    jobs: u64,
    ticks: u64,
}

impl Overruns {
    /// Adds a table's tasks in an order in which none is late; none in an empty order.
    fn count(&mut self, table: &Table, order: &[usize]) {
        let ranked: Vec<&Row> = order.iter().map(|&index| &table.rows[index]).collect();
        for (rank, row) in ranked.iter().enumerate() {
            let (above, below) = (&ranked[..rank], &ranked[rank + 1..]);
            let finishes = model::finishes(table.switch, row, above, below).unwrap_or_default();
            let latest = model::latest(table.switch, row, above, below);
            self.short += (row.deadline < row.period) as u64;
            self.long += (row.deadline > row.period) as u64;
            self.just += (latest == Some(row.deadline)) as u64;
            self.overran += (finishes.len() > 1) as u64;
            self.later += (finishes.len() > 1 && latest > finishes.first().copied()) as u64;
            self.jobs = self.jobs.max(finishes.len() as u64);
            self.ticks = self.ticks.max(finishes.last().copied().unwrap_or(0));
        }
    }

    fn count_plan(&mut self, text: &[u8], plan: &[u8]) {
        let Ok(table) = model::read_table(text) else {
            return;
        };
        let ranks = calls::ranks_in(plan, &table.rows).unwrap_or_default();
        let order: Vec<usize> = ranks.iter().map(|rank| rank.index).collect();
        self.count(&table, &order);
    }

    fn print(&self) {
        let Overruns { short, long, just, overran, later, jobs, ticks } = self;
        print!(
            "  tasks of the plans with a deadline below their period: {short}, past it: {long}, "
        );
        println!("with just their latest response: {just}");
        print!(
            "  tasks that overrun their period: {overran}, {later} of them longest by a later job "
        );
        println!("than the first; busy intervals of {jobs} jobs and {ticks} ticks at most");
    }

    /// That the tables tried what they should.
    fn complete(&self, tables: u64) -> Result<(), String> {
        let Overruns { short, just, overran, later, .. } = self;
        if tables >= MANY_TABLES && [short, just, overran, later].contains(&&0) {
            return Err(format!(
                "NOT MET: a kind of deadline that is counted above, {tables} tables\n"
            ));
        }
        Ok(())
    }
}

/// Tables in which hundreds of jobs of one task, each with its switch, delay another's.
fn run_crowded(dice: &mut Dice, count: u64) -> Result<(), String> {
    let (mut tally, started) = (Tally::default(), Instant::now());
    let (mut accepted, mut overruns) = (0, Overruns::default());
    for done in 1..=count {
        let tasks = 2 + dice.below(MOST_CROWDED - 1);
        let table = tables::crowded(dice, tasks);
        let order = compare_table(dice, &mut tally, &table)?;
        accepted += order.is_some() as u64;
        overruns.count(&table, order.as_deref().unwrap_or(&[]));
        progress("crowded tables", done, count, started);
    }
    print!("{count} tables of 2 to {MOST_CROWDED} tasks, hundreds of jobs of one in the time of ");
    println!("another's, {} calls, no difference", tally.calls());
    println!("  with a stable order: {accepted}");
    overruns.print();
    Ok(())
}

// ---- The program ------------------------------------------------------------------------

struct Options {
    texts: u64,
    tables: u64,
    boards: u64,
    cranes: u64,
    crowded: u64,
    watches: u64,
    seed: u64,
    says: Option<Call>,
}

fn options() -> Option<Options> {
    let mut options = Options {
        texts: 20_000,
        tables: 1_200,
        boards: 100,
        cranes: 4_000,
        crowded: 200,
        watches: 5_000,
        seed: 1,
        says: None,
    };
    let mut words = std::env::args().skip(1);
    while let Some(word) = words.next() {
        let value = words.next()?;
        match (word.as_str(), value.as_str()) {
            ("--texts", count) => options.texts = count.parse().ok()?,
            ("--tables", count) => options.tables = count.parse().ok()?,
            ("--boards", count) => options.boards = count.parse().ok()?,
            ("--cranes", count) => options.cranes = count.parse().ok()?,
            ("--crowded", count) => options.crowded = count.parse().ok()?,
            ("--watches", count) => options.watches = count.parse().ok()?,
            ("--seed", seed) => options.seed = seed.parse().ok()?,
            ("--says", "plan") => options.says = Some(Call::Plan),
            ("--says", "review") => options.says = Some(Call::Review),
            ("--says", "crane") => options.says = Some(Call::Crane),
            ("--says", "watch") => options.says = Some(Call::Watch),
            _ => return None,
        }
    }
    Some(options)
}

fn say(call: Call) -> std::io::Result<()> {
    let mut input = Vec::new();
    std::io::stdin().read_to_end(&mut input)?;
    std::io::stdout().write_all(&model::printed(call.by_program(), call.takes(), &input))
}

/// Each part has dice of its own, so that its texts do not depend on the counts of the others.
fn run_all(options: &Options) -> Result<(), String> {
    run_texts(&mut Dice::new(options.seed), options.texts)?;
    run_tables(&mut Dice::new(options.seed ^ 1 << 32), options.tables)?;
    board_runs::run(&mut Dice::new(options.seed ^ 2 << 32), options.boards)?;
    crane_runs::run(&mut Dice::new(options.seed ^ 3 << 32), options.cranes)?;
    run_crowded(&mut Dice::new(options.seed ^ 4 << 32), options.crowded)?;
    watch_runs::run(&mut Dice::new(options.seed ^ 5 << 32), options.watches)
}

fn main() -> ExitCode {
    let Some(options) = options() else {
        eprintln!("{USAGE}");
        return ExitCode::from(2);
    };
    if let Some(call) = options.says {
        return if say(call).is_ok() { ExitCode::SUCCESS } else { ExitCode::from(2) };
    }
    println!("seed {}", options.seed);
    let Err(found) = run_all(&options) else {
        return ExitCode::SUCCESS;
    };
    println!("{found}seed {}", options.seed);
    ExitCode::FAILURE
}
