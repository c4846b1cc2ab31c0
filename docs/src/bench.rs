//! Times the proved planner against the same algorithm in plain Rust (`plain.rs`), on the same
//! texts in one run, and looks for slow tables. With `--cfg before` it has an older library beside
//! it, from before request 8, which is given the same tables without their deadlines. Built with
//! `--cfg model_only` it needs no library, and times plain Rust against itself. See
//! `docs/TESTING.md`.

// The flags are given to rustc by hand, so that no list of known flags names them.
#![allow(unexpected_cfgs)]

mod dice;
// Of these files only a part is needed here.
#[cfg(not(model_only))]
#[allow(dead_code)]
mod library;
#[cfg(model_only)]
use plain as library;
#[allow(dead_code)]
mod model;
#[allow(dead_code)]
mod plain;
#[allow(dead_code)]
mod tables;

use dice::Dice;
use model::{Answer, Row, Table, MOST_PIECES, MOST_TASKS};
use plain::{Work, JOB_AFTER_JOB, ONE_OF_EACH, OWN_TIMES};
use std::hint::black_box;
use std::process::ExitCode;

/// Full boards for each table of a number of tasks: this many with an order and as many without.
const FULL_BOARDS: usize = 6;
/// The terms that the search adds up at the least where it is the search that is to be timed, and
/// not reading and writing.
const MUCH_WORK: u64 = 3_000;
/// Longer than any plan, and than any crane's output.
const AMPLE: usize = MOST_PIECES * 2_048;
/// Cranes are timed with so many boards.
const CRANES: [usize; 6] = [1, 2, 4, 8, 16, 32];
/// Calls of one measurement together last about this many seconds, for the clock to be fine
/// enough.
const BATCH: f64 = 1e-3;
/// A slow table is the slowest of this many.
const DRAWN_FOR_A_SLOW_ONE: usize = 100;

const USAGE: &str = "usage: bench [--tables N] [--rounds N] [--climb MILLIONS] [--seed S]";

type Function = fn(&[u8], &mut [u8]) -> Answer;

/// The same call twice: what is measured against, and what is measured.
struct Pair {
    base: Function,
    timed: Function,
}

const PLAN: Pair = Pair { base: plain::plan, timed: library::plan };
const REVIEW: Pair = Pair { base: plain::review, timed: library::review };
const CRANE: Pair = Pair { base: plain::crane, timed: library::crane };
const WATCH: Pair = Pair { base: plain::watch, timed: library::watch };

/// The planner before request 6 and after it, in plain Rust.
const SOONER: Pair = Pair { base: plain::plan_before, timed: plain::plan };
/// The planner where the search for the end of each job begins anew, and as it is, in plain Rust.
const GOING_ON: Pair = Pair { base: plain::plan_anew, timed: plain::plan };
/// An older planner and an older reviewer, which know no deadlines, and these.
#[cfg(before)]
const OLDER_PLAN: Pair = Pair { base: library::plan_before, timed: library::plan };
#[cfg(before)]
const OLDER_REVIEW: Pair = Pair { base: library::review_before, timed: library::review };

/// A text on which the two do not print the same.
struct Different(Vec<u8>);

// ---- Measuring --------------------------------------------------------------------------

unsafe extern "C" {
    /// The processor time of this program in microseconds, by the C library that std links:
    /// other programs on the machine do not lengthen it, as they would a wall clock's time.
    safe fn clock() -> i64;
}

/// Seconds of the processor for one call of each.
#[derive(Clone, Copy, Default)]
struct Times {
    base: f64,
    timed: f64,
}

impl Times {
    fn ratio(&self) -> f64 {
        self.timed / self.base
    }

    fn add(&mut self, times: Times) {
        self.base += times.base;
        self.timed += times.timed;
    }
}

fn printed(function: Function, text: &[u8]) -> (Answer, Vec<u8>) {
    let mut buffer = vec![0; AMPLE];
    let answer = function(text, &mut buffer);
    (answer, buffer)
}

/// Calls on one text after another, all of them so many times.
fn seconds_in_turn(function: Function, texts: &[&[u8]], turns: u32) -> f64 {
    let mut buffer = [0; AMPLE];
    let started = clock();
    for _ in 0..turns {
        for &text in texts {
            black_box(function(black_box(text), &mut buffer));
        }
    }
    (clock() - started) as f64 * 1e-6 / f64::from(turns)
}

fn seconds(function: Function, text: &[u8], calls: u32) -> f64 {
    seconds_in_turn(function, &[text], calls)
}

/// The two on one text.
fn measure(pair: &Pair, text: &[u8], rounds: u32) -> Result<Times, Different> {
    measure_on(pair, text, text, rounds)
}

/// The shortest times of several rounds, which are disturbed least; the two take turns in going
/// first. Each has its own text of one table, to which both say the same.
fn measure_on(pair: &Pair, base_text: &[u8], text: &[u8], rounds: u32) -> Result<Times, Different> {
    if printed(pair.base, base_text) != printed(pair.timed, text) {
        return Err(Different(text.to_vec()));
    }
    let once = seconds(pair.base, base_text, 1);
    let calls = (BATCH / once).clamp(1.0, 10_000.0) as u32;
    let mut times = Times { base: f64::INFINITY, timed: f64::INFINITY };
    for round in 0..rounds {
        if round % 2 == 0 {
            times.base = times.base.min(seconds(pair.base, base_text, calls));
        }
        times.timed = times.timed.min(seconds(pair.timed, text, calls));
        if round % 2 == 1 {
            times.base = times.base.min(seconds(pair.base, base_text, calls));
        }
    }
    Ok(times)
}

/// Measures the texts for each number of tasks and prints a line for each: the time of a call,
/// the ratio, and the growth of the library's time over one task fewer.
fn print_times(
    title: &str,
    pair: &Pair,
    texts: &[Vec<Vec<u8>>],
    rounds: u32,
) -> Result<(), Different> {
    print_times_on(title, ("plain", pair, <[u8]>::to_vec), texts, rounds)
}

/// The same where what is measured against has a name, and a text of its own of each table.
fn print_times_on(
    title: &str,
    (name, pair, base_text): (&str, &Pair, fn(&[u8]) -> Vec<u8>),
    texts: &[Vec<Vec<u8>>],
    rounds: u32,
) -> Result<(), Different> {
    println!("{title}, microseconds a call");
    println!("  tasks {name:>10}    library   ratio  growth");
    let (mut total, mut before) = (Times::default(), None);
    for (tasks, texts) in texts.iter().enumerate() {
        let mut sum = Times::default();
        for text in texts {
            sum.add(measure_on(pair, &base_text(text), text, rounds)?);
        }
        let micros = 1e6 / texts.len() as f64;
        let growth = before.map_or(String::new(), |before| format!("{:.2}", sum.timed / before));
        let (base, library) = (sum.base * micros, sum.timed * micros);
        println!("  {:5} {base:10.2} {library:10.2} {:7.2} {growth:>7}", tasks + 1, sum.ratio());
        before = Some(sum.timed);
        total.add(sum);
    }
    let (base, library) = (total.base * 1e3, total.timed * 1e3);
    println!("  total: {name} {base:.3} ms, library {library:.3} ms, ratio {:.3}", total.ratio());
    Ok(())
}

/// The older calls beside these, which have a line more to read in each row.
#[cfg(before)]
fn print_older(typical: &[Vec<Table>], slow: &[Vec<Table>], rounds: u32) -> Result<(), Different> {
    let print = |title, pair, texts: &[Vec<Vec<u8>>]| {
        print_times_on(title, ("older", pair, without_deadlines), texts, rounds)
    };
    print("planner, typical tables", &OLDER_PLAN, &texts_of(typical, tables::text))?;
    print("planner, slow tables", &OLDER_PLAN, &texts_of(slow, tables::text))?;
    print("reviewer, typical tables", &OLDER_REVIEW, &texts_of(typical, ranked_text))
}

#[cfg(not(before))]
fn print_older(_: &[Vec<Table>], _: &[Vec<Table>], _: u32) -> Result<(), Different> {
    Ok(())
}

/// The text of a table whose deadlines are its periods as it was before request 8.
#[cfg(before)]
fn without_deadlines(text: &[u8]) -> Vec<u8> {
    let lines = text.split_inclusive(|&byte| byte == b'\n');
    lines.filter(|line| !line.starts_with(b"deadline=")).flatten().copied().collect()
}

// ---- Tables -----------------------------------------------------------------------------

/// The work of the search for the plan's order, begun as `START` says, up to so many terms.
fn counted<const START: u8>(table: &Table, most: u64) -> Work {
    plain::chosen::<true, START>(&plain::table_of(table), most).1
}

fn order(table: &Table) -> Option<Vec<usize>> {
    plain::chosen::<false, JOB_AFTER_JOB>(&plain::table_of(table), u64::MAX).0
}

fn work(table: &Table) -> u64 {
    counted::<JOB_AFTER_JOB>(table, u64::MAX).terms
}

fn typical(dice: &mut Dice, tasks: usize) -> Table {
    let family = dice.pick(&tables::FAMILIES);
    tables::simple(dice, family, tasks, false)
}

fn holding(dice: &mut Dice, tasks: usize) -> Table {
    let family = dice.pick(&tables::FAMILIES);
    tables::holding(dice, family, tasks, false)
}

fn switching(dice: &mut Dice, tasks: usize) -> Table {
    let family = dice.pick(&tables::FAMILIES);
    tables::switching(dice, family, tasks, false)
}

fn curved(dice: &mut Dice, tasks: usize) -> Table {
    let family = dice.pick(&tables::FAMILIES);
    tables::curved(dice, family, tasks)
}

fn deadlined(dice: &mut Dice, tasks: usize) -> Table {
    let family = dice.pick(&tables::FAMILIES);
    tables::deadlined(dice, family, tasks)
}

fn slowest_drawn(dice: &mut Dice, draw: Draw, tasks: usize) -> Table {
    let mut slowest = draw(dice, tasks);
    for _ in 1..DRAWN_FOR_A_SLOW_ONE {
        let table = draw(dice, tasks);
        if work(&table) > work(&slowest) {
            slowest = table;
        }
    }
    slowest
}

fn slow(dice: &mut Dice, tasks: usize) -> Table {
    slowest_drawn(dice, typical, tasks)
}

fn slow_holding(dice: &mut Dice, tasks: usize) -> Table {
    slowest_drawn(dice, holding, tasks)
}

fn slow_switching(dice: &mut Dice, tasks: usize) -> Table {
    slowest_drawn(dice, switching, tasks)
}

fn slow_curved(dice: &mut Dice, tasks: usize) -> Table {
    slowest_drawn(dice, curved, tasks)
}

fn slow_deadlined(dice: &mut Dice, tasks: usize) -> Table {
    slowest_drawn(dice, deadlined, tasks)
}

type Draw = fn(&mut Dice, usize) -> Table;

/// Tables for each number of tasks.
fn draw_tables(dice: &mut Dice, draw: Draw, count: usize) -> Vec<Vec<Table>> {
    (1..=MOST_TASKS).map(|tasks| (0..count).map(|_| draw(dice, tasks)).collect()).collect()
}

fn texts_of(tables: &[Vec<Table>], text: fn(&Table) -> Vec<u8>) -> Vec<Vec<Vec<u8>>> {
    tables.iter().map(|tables| tables.iter().map(text).collect()).collect()
}

/// A table with the plan's order as rank lines, or by period where no order is stable.
fn ranked_text(table: &Table) -> Vec<u8> {
    let rows = &table.rows;
    let mut by_period: Vec<usize> = (0..rows.len()).collect();
    by_period.sort_by_key(|&index| rows[index].period);
    let order = order(table).unwrap_or(by_period);
    let ranks = order.iter().flat_map(|&index| format!("rank={}\n", rows[index].task).into_bytes());
    tables::text(table).into_iter().chain(ranks).collect()
}

/// Times full boards that have an order and full boards that have none, drawn until there are
/// enough of each on which the search adds up this many terms at the least.
fn print_full_boards(
    title: &str,
    dice: &mut Dice,
    least: u64,
    options: &Options,
) -> Result<(), Different> {
    let (boards, mut texts) = (FULL_BOARDS * options.tables, [Vec::new(), Vec::new()]);
    while texts.iter().any(|texts| texts.len() < boards) {
        let table = typical(dice, MOST_TASKS);
        if work(&table) < least {
            continue;
        }
        let half = &mut texts[usize::from(order(&table).is_none())];
        if half.len() < boards {
            half.push(tables::text(&table));
        }
    }
    println!("planner, {} tables of {MOST_TASKS} tasks {title}, microseconds a call", 2 * boards);
    let mut total = Times::default();
    for (name, texts) in ["with an order", "with no order"].iter().zip(&texts) {
        let mut sum = Times::default();
        for text in texts {
            sum.add(measure(&PLAN, text, options.rounds)?);
        }
        let micros = 1e6 / texts.len() as f64;
        let (plain, library) = (sum.base * micros, sum.timed * micros);
        println!("  {name}: plain {plain:.2}, library {library:.2}, ratio {:.3}", sum.ratio());
        total.add(sum);
    }
    println!("  all: ratio {:.3}", total.ratio());
    Ok(())
}

/// Times cranes of ever more boards of any number of tasks, and the library's crane against its own
/// single calls on the same boards.
fn print_cranes(dice: &mut Dice, count: usize, rounds: u32) -> Result<(), Different> {
    println!("crane, boards of 1 to {MOST_TASKS} tasks, microseconds a call");
    println!("  boards     plain    library   ratio  to single calls");
    for boards in CRANES {
        let (mut sum, mut single) = (Times::default(), 0.0);
        for _ in 0..count {
            let mut board = || {
                let tasks = dice.below(MOST_TASKS) + 1;
                tables::text(&typical(dice, tasks))
            };
            let pieces: Vec<Vec<u8>> = (0..boards).map(|_| board()).collect();
            let times = measure(&CRANE, &pieces.concat(), rounds)?;
            sum.add(times);
            let turns = (BATCH / times.timed).clamp(1.0, 10_000.0) as u32;
            let pieces: Vec<&[u8]> = pieces.iter().map(Vec::as_slice).collect();
            let turn = |_| seconds_in_turn(library::plan, &pieces, turns);
            single += (0..rounds).map(turn).fold(f64::INFINITY, f64::min);
        }
        let micros = 1e6 / count as f64;
        let (plain, library) = (sum.base * micros, sum.timed * micros);
        let more = sum.timed / single;
        println!("  {boards:6} {plain:9.2} {library:10.2} {:7.2} {more:16.2}", sum.ratio());
    }
    Ok(())
}

// ---- Where the search of a latest response begins --------------------------------------

/// The numbers of tasks for which it is shown what request 6 has saved.
const SHOWN: [usize; 2] = [12, 16];
const SAVED: &str =
    "planner before and after request 6: values of W tried for an order, microseconds a call";

/// What request 6 has saved on some tables: the values that the search of a latest response tries
/// while an order is looked for, and the time of a call, before and after.
fn print_saved(name: &str, tables: &[Table], rounds: u32) -> Result<(), Different> {
    let count = tables.len() as f64;
    let values = |work: fn(&Table) -> Work| {
        tables.iter().map(|table| work(table).values).sum::<u64>() as f64 / count
    };
    let before = values(|table| counted::<OWN_TIMES>(table, u64::MAX));
    let after = values(|table| counted::<JOB_AFTER_JOB>(table, u64::MAX));
    println!("  {name}: values tried {before:.1}, {after:.1}, ratio {:.3}", after / before);
    let mut sum = Times::default();
    for table in tables {
        sum.add(measure(&SOONER, &tables::text(table), rounds)?);
    }
    let (before, after) = (sum.base * 1e6 / count, sum.timed * 1e6 / count);
    println!("    plain: {before:.2}, {after:.2}, ratio {:.3}", sum.ratio());
    Ok(())
}

/// What it saves to go on from the end of the job before, on tables with deadlines: the values that
/// are tried, and the time of a call, where the search begins anew for each job and where it goes on.
fn print_anew(dice: &mut Dice, options: &Options) -> Result<(), Different> {
    print!("planner, the end of each job searched anew, or on from the one before: ");
    println!("values tried for an order, microseconds a call");
    for tasks in SHOWN {
        let tables: Vec<Table> = (0..options.tables).map(|_| slow_deadlined(dice, tasks)).collect();
        let count = tables.len() as f64;
        let values = |work: fn(&Table) -> Work| {
            tables.iter().map(|table| work(table).values).sum::<u64>() as f64 / count
        };
        let anew = values(|table| counted::<ONE_OF_EACH>(table, u64::MAX));
        let after = values(|table| counted::<JOB_AFTER_JOB>(table, u64::MAX));
        let mut sum = Times::default();
        for table in &tables {
            sum.add(measure(&GOING_ON, &tables::text(table), options.rounds)?);
        }
        let (base, timed) = (sum.base * 1e6 / count, sum.timed * 1e6 / count);
        println!("  {tasks} tasks, slow: values {anew:.1}, {after:.1}, ratio {:.3}", after / anew);
        println!("    plain: {base:.2}, {timed:.2}, ratio {:.3}", sum.ratio());
    }
    Ok(())
}

// ---- Full runs --------------------------------------------------------------------------

/// A run of the most ticks with the most tasks and lengths, all tasks nearly alike.
fn full_run(period: u64, worst: u64, best: u64) -> Vec<u8> {
    let row = |task: u64| Row {
        task,
        period: period + task,
        deadline: period + task,
        worst,
        best,
        alpha: 1_000,
        beta: 0,
        hold: 0,
        curve: Vec::new(),
    };
    let rows: Vec<Row> = (1..=MOST_TASKS as u64).map(row).collect();
    let mut text = ranked_text(&Table { board: 1, switch: 0, rows });
    (0..MOST_TASKS).for_each(|task| text.extend(format!("release={}\n", 3 * task).bytes()));
    text.extend(b"ticks=1000000\nlengths=2048\n");
    let length = |job| best + job % (worst - best + 1);
    (0..2048).for_each(|job| text.extend(format!("length={}\n", length(job)).bytes()));
    text
}

const FULL_RUNS: [(&str, u64, u64, u64); 3] = [
    ("hardly a tick idle, more lines than fit", 200, 12, 6),
    ("every second tick idle, lines that fit", 10_000, 300, 200),
    ("hardly a tick busy", 100_000, 20, 10),
];

/// Times full runs. The library goes tick by tick, plain Rust from release to release, so the two
/// are no ratio.
fn print_full_runs(rounds: u32) -> Result<(), Different> {
    println!("watcher, 1000000 ticks, {MOST_TASKS} tasks, 2048 lengths, milliseconds a call");
    for (name, period, worst, best) in FULL_RUNS {
        let times = measure(&WATCH, &full_run(period, worst, best), rounds)?;
        let (plain, library) = (1e3 * times.base, 1e3 * times.timed);
        println!("  {name}: plain, from release to release, {plain:.2}, library {library:.2}");
    }
    Ok(())
}

// ---- The stack --------------------------------------------------------------------------

/// The bytes of stack that a call is lent to measure it, more than any needs, and what they hold
/// before it.
const STACK: usize = 1 << 20;
const UNTOUCHED: u8 = 0xa5;

/// A thread's attributes, as the C library lays them out for 64 bits on Linux.
type Attributes = [u64; 7];

unsafe extern "C" {
    fn pthread_attr_init(attributes: *mut Attributes) -> i32;
    fn pthread_attr_setstack(attributes: *mut Attributes, stack: *mut u8, size: usize) -> i32;
    fn pthread_create(
        thread: *mut u64,
        attributes: *const Attributes,
        start: extern "C" fn(*mut u8) -> *mut u8,
        job: *mut u8,
    ) -> i32;
    fn pthread_join(thread: u64, result: *mut *mut u8) -> i32;
}

/// A call to be made on a stack of its own.
struct Job<'a> {
    function: Function,
    text: &'a [u8],
    buffer: Vec<u8>,
}

#[repr(align(4096))]
#[derive(Clone)]
struct Page([u8; 4096]);

extern "C" fn run_job(job: *mut u8) -> *mut u8 {
    // SAFETY: a job of `stack_touched`, which waits for the thread before it looks at it.
    let Job { function, text, buffer } = unsafe { &mut *job.cast::<Job>() };
    black_box(function(text, buffer));
    job
}

/// How far down a thread's stack is touched when it makes a call.
fn stack_touched(function: Function, text: &[u8]) -> usize {
    let mut stack = vec![Page([UNTOUCHED; 4096]); STACK / 4096];
    let mut job = Job { function, text, buffer: vec![0; AMPLE] };
    let (mut attributes, mut thread, mut result) = ([0; 7], 0, std::ptr::null_mut());
    // SAFETY: the stack is aligned to a page and lives until the thread has ended.
    let statuses = unsafe {
        [
            pthread_attr_init(&mut attributes),
            pthread_attr_setstack(&mut attributes, stack.as_mut_ptr().cast(), STACK),
            pthread_create(&mut thread, &attributes, run_job, (&raw mut job).cast()),
            pthread_join(thread, &mut result),
        ]
    };
    assert_eq!(statuses, [0; 4], "a thread with a stack of its own");
    let bytes = black_box(&stack).iter().flat_map(|page| page.0);
    STACK - bytes.take_while(|&byte| byte == UNTOUCHED).count()
}

fn nothing(_: &[u8], _: &mut [u8]) -> Answer {
    Answer { number: 0, place: 0, length: 0 }
}

/// The stack that each call needs on full boards, beside what a thread needs that does nothing.
fn print_stack(dice: &mut Dice, count: usize) {
    let mut tables: Vec<Table> = (0..count).map(|_| slow(dice, MOST_TASKS)).collect();
    tables.extend((0..count).map(|_| curved(dice, MOST_TASKS)));
    let plans: Vec<Vec<u8>> = tables.iter().map(tables::text).collect();
    let reviews: Vec<Vec<u8>> = tables.iter().map(ranked_text).collect();
    let crane = plans[count / 2..][..count].concat();
    let most = |function, texts: &[Vec<u8>]| {
        let touched = texts.iter().map(|text| stack_touched(function, text)).max().unwrap_or(0);
        touched - stack_touched(nothing, b"")
    };
    let runs = FULL_RUNS.map(|(_, period, worst, best)| full_run(period, worst, best));
    println!("stack of a call with {MOST_TASKS} tasks, bytes:");
    println!(
        "  planner {}, reviewer {}, crane {}, watcher {}",
        most(PLAN.timed, &plans),
        most(REVIEW.timed, &reviews),
        most(CRANE.timed, &[crane]),
        most(WATCH.timed, &runs)
    );
}

// ---- The search for slow tables ---------------------------------------------------------

const MOST_TICKS: u64 = 1_000_000;
/// A search of more terms than this is timed by one call.
const SLOW_WORK: u64 = 500_000_000;

fn near(dice: &mut Dice, number: u64, low: u64, high: u64) -> u64 {
    let moved = match dice.below(5) {
        0 => number + 1,
        1 => number.saturating_sub(1),
        2 => number * dice.between(2, 10),
        3 => number / dice.between(2, 10),
        _ => dice.any_size(high),
    };
    moved.clamp(low, high)
}

/// A beta that is no limit, or that the row just misses below some of the others.
fn some_beta(dice: &mut Dice, table: &Table, index: usize) -> u64 {
    match tables::boundary_at_random(dice, table, index) {
        Some(beta) if dice.once_in(2) => beta.max(1) - 1,
        _ => 200_000_000_000,
    }
}

/// A table a step away, with deadlines of its own if `patient`; its switch stays, and is 0 where a
/// climb begins.
fn step_from(dice: &mut Dice, table: &Table, patient: bool) -> Table {
    let mut table = table.clone();
    let (index, other) = (dice.below(table.rows.len()), dice.below(table.rows.len()));
    let mut row = table.rows[index].clone();
    match dice.below(if patient { 9 } else { 7 }) {
        0 => row.period = near(dice, row.period, row.worst, MOST_TICKS),
        1 => row.worst = near(dice, row.worst, 1, row.period),
        2 => row.best = near(dice, row.best, 1, row.worst),
        3 => row.alpha = dice.pick(&[1_000, 2_000, 100_000]),
        4 => row.beta = some_beta(dice, &table, index),
        5 => row = Row { task: row.task, ..table.rows[other].clone() },
        6 => {}
        7 => row.deadline = MOST_TICKS,
        _ => row.deadline = near(dice, row.deadline, 1, MOST_TICKS),
    }
    row.best = row.best.min(row.worst);
    if !patient {
        row.deadline = row.period;
    }
    table.rows[index] = row;
    if dice.once_in(4) {
        table.rows.swap(index, other);
    }
    table
}

/// A row of jobs of so many ticks that no line troubles and, but for its period, no deadline either.
fn loose(period: u64, ticks: u64, deadline: u64) -> Row {
    Row {
        task: 0,
        period,
        deadline,
        worst: ticks,
        best: ticks,
        alpha: 1_000,
        beta: 200_000_000_000,
        hold: 0,
        curve: Vec::new(),
    }
}

fn numbered(mut rows: Vec<Row>) -> Table {
    rows.iter_mut().zip(1..).for_each(|(row, task)| row.task = task);
    Table { board: 1, switch: 0, rows }
}

/// A table made to be slow: short tasks that leave one tick in 87,639 free, so that the search of a
/// latest response creeps; long tasks that all just fit below them, so that every set of these is
/// tried; and, last in the table, a task that is never stable, so that all of it is in vain.
fn creeping(tasks: usize) -> Table {
    let (short, never) = ([1_844, 43, 7, 3, 2], 1);
    let long = std::iter::repeat_n(MOST_TICKS, tasks - short.len() - never);
    let rows = long.chain(short).map(|period| loose(period, 1, period));
    let mut rows = rows.collect::<Vec<_>>();
    rows.push(Row { beta: 0, ..rows[0].clone() });
    numbered(rows)
}

/// A table made to be slow by its deadlines: a task of one tick in two, the last of the table, below
/// one of nearly half a million ticks that is never stable has half a million jobs in its busy
/// interval. The others are stable wherever they stand, so that every set of them is tried, with that
/// task as its lowest too.
fn overrunning(tasks: usize) -> Table {
    let others = tasks as u64 - 2;
    let mut rows: Vec<Row> = (0..others).map(|_| loose(MOST_TICKS, 1, MOST_TICKS)).collect();
    let long = MOST_TICKS / 2 - 2 * others;
    rows.push(Row { beta: 0, ..loose(MOST_TICKS, long, MOST_TICKS) });
    rows.push(loose(2, 1, MOST_TICKS));
    numbered(rows)
}

/// The same with tasks that all overrun: each has tens of thousands of jobs in its busy interval below
/// the long one, and no row of a set ends within its own period.
fn all_overrunning(tasks: usize) -> Table {
    let short = tasks as u64 - 1;
    let mut rows: Vec<Row> = (0..short).map(|_| loose(2 * short + 2, 1, MOST_TICKS)).collect();
    rows.push(Row { beta: 0, ..loose(MOST_TICKS, MOST_TICKS / 2, MOST_TICKS) });
    numbered(rows)
}

/// Climbs from a table to slower ones until the work of all tables tried passes `budget`; the work of
/// the last, or one past the budget if it needs more.
fn climb(dice: &mut Dice, start: Table, budget: u64, patient: bool) -> (u64, Table) {
    let work = |table: &Table| counted::<JOB_AFTER_JOB>(table, budget).terms.min(budget + 1);
    let (mut most, mut table) = (work(&start), start);
    let mut spent = most;
    while spent < budget {
        let next = step_from(dice, &table, patient);
        let needed = work(&next);
        spent += needed;
        if needed >= most {
            (most, table) = (needed, next);
        }
    }
    (most, table)
}

/// What one call takes of each on a text; of several rounds the shortest where they are quick.
fn measure_slow(pair: &Pair, text: &[u8], work: u64, rounds: u32) -> Result<Times, Different> {
    if work < SLOW_WORK {
        return measure(pair, text, rounds);
    }
    let mut buffers = [vec![0; AMPLE], vec![0; AMPLE]];
    let [one, other] = &mut buffers;
    let once = |function: Function, buffer: &mut Vec<u8>| {
        let started = clock();
        let answer = black_box(function(black_box(text), buffer));
        (answer, (clock() - started) as f64 * 1e-6)
    };
    let (base, timed) = (once(pair.base, one), once(pair.timed, other));
    if (base.0, one) != (timed.0, other) {
        return Err(Different(text.to_vec()));
    }
    Ok(Times { base: base.1, timed: timed.1 })
}

/// Prints a slow table with the times that it takes and, up to so many terms, where they go.
fn print_slow(name: &str, table: &Table, most: u64, rounds: u32) -> Result<(), Different> {
    let Work { sets, tests, jobs, values, terms } = counted::<JOB_AFTER_JOB>(table, most);
    let text = tables::text(table);
    let times = measure_slow(&PLAN, &text, terms, rounds)?;
    let (plain, library) = (times.base * 1e3, times.timed * 1e3);
    println!("{name}: plain {plain:.3} ms, library {library:.3} ms, ratio {:.3}", times.ratio());
    match terms > most {
        true => println!("  more than {most} terms"),
        false => {
            print!("  {sets} sets, {tests} tests of a row, {jobs} jobs of busy intervals, ");
            println!("{values} values of their ends, {terms} terms");
        }
    }
    print!("{}", String::from_utf8_lossy(&text));
    Ok(())
}

/// Climbs from a drawn table and from made ones, each with its part of the budget, and times the
/// slowest table that was met; with deadlines of the periods, and with other ones.
fn print_slowest(dice: &mut Dice, millions: u64, rounds: u32) -> Result<(), Different> {
    println!("{SAVED}");
    print_saved("12 tasks, made to be slow", &[creeping(12)], 2)?;
    for tasks in SHOWN {
        for patient in [false, true] {
            let starts = match patient {
                false => vec![slow(dice, tasks), creeping(tasks)],
                true => {
                    vec![slow_deadlined(dice, tasks), all_overrunning(tasks), overrunning(tasks)]
                }
            };
            let budget = millions * 1_000_000 / starts.len() as u64;
            let ends = starts.into_iter().map(|start| climb(dice, start, budget, patient));
            let ends: Vec<(u64, Table)> = ends.collect();
            let met: Vec<u64> = ends.iter().map(|end| end.0).collect();
            let (_, table) = ends.into_iter().max_by_key(|end| end.0).expect("some climbs");
            let with = if patient { "with deadlines" } else { "with deadlines of the periods" };
            println!("{tasks} tasks {with}: climbed to {met:?} terms");
            print_slow(&format!("slowest table of {tasks} tasks {with}"), &table, budget, rounds)?;
        }
    }
    Ok(())
}

/// What one test of a row costs whose busy interval has the most ticks: the first row of the table,
/// below all others. Beside it only rows are tested that are late at once.
fn print_busy_interval(rounds: u32) -> Result<(), Different> {
    println!(
        "planner, a row tested whose busy interval has {MOST_TICKS} ticks, milliseconds a call"
    );
    // The others are late at once below any other row.
    let long = |ticks| loose(MOST_TICKS, ticks, 1);
    let (once, often) = (vec![long(1); 14], vec![loose(30, 1, 1); 14]);
    let tables = [
        ("500000 jobs below one task", vec![loose(2, 1, MOST_TICKS), long(500_000)]),
        ("500000 jobs below 15", [vec![loose(2, 1, MOST_TICKS), long(499_986)], once].concat()),
        ("33334 jobs below 15", [vec![loose(30, 1, MOST_TICKS), long(500_000)], often].concat()),
    ];
    for (name, rows) in tables {
        let table = numbered(rows);
        let Work { tests, jobs, values, terms, .. } = counted::<JOB_AFTER_JOB>(&table, u64::MAX);
        let times = measure_slow(&PLAN, &tables::text(&table), terms, rounds)?;
        let (plain, library) = (1e3 * times.base, 1e3 * times.timed);
        print!("  {name}: plain {plain:.3}, library {library:.3}, ratio {:.3}", times.ratio());
        println!("; {tests} tests, {jobs} jobs, {values} values, {terms} terms");
    }
    Ok(())
}

// ---- The program ------------------------------------------------------------------------

struct Options {
    tables: usize,
    rounds: u32,
    climb: u64,
    seed: u64,
}

fn options() -> Option<Options> {
    let mut options = Options { tables: 20, rounds: 6, climb: 1_000, seed: 1 };
    let mut words = std::env::args().skip(1);
    while let Some(word) = words.next() {
        let value = words.next()?;
        match word.as_str() {
            "--tables" => options.tables = value.parse().ok().filter(|&tables| tables > 0)?,
            "--rounds" => options.rounds = value.parse().ok().filter(|&rounds| rounds > 1)?,
            "--climb" => options.climb = value.parse().ok()?,
            "--seed" => options.seed = value.parse().ok()?,
            _ => return None,
        }
    }
    Some(options)
}

/// The planner on typical and on slow tables that have something more.
fn print_more(
    dice: &mut Dice,
    more: &str,
    draws: [Draw; 2],
    options: &Options,
) -> Result<(), Different> {
    for (name, draw) in ["typical", "slow"].iter().zip(draws) {
        let texts = texts_of(&draw_tables(dice, draw, options.tables), tables::text);
        print_times(&format!("planner, {name} tables {more}"), &PLAN, &texts, options.rounds)?;
    }
    Ok(())
}

fn run(options: &Options) -> Result<(), Different> {
    let mut dice = Dice::new(options.seed);
    let typical = draw_tables(&mut dice, typical, options.tables);
    let slow = draw_tables(&mut dice, slow, options.tables);
    let text = tables::text;
    print_times("planner, typical tables", &PLAN, &texts_of(&typical, text), options.rounds)?;
    print_times("planner, slow tables", &PLAN, &texts_of(&slow, text), options.rounds)?;
    print_times(
        "reviewer, typical tables",
        &REVIEW,
        &texts_of(&typical, ranked_text),
        options.rounds,
    )?;
    print_older(&typical, &slow, options.rounds)?;
    println!("{SAVED}");
    for tasks in SHOWN {
        print_saved(&format!("{tasks} tasks, typical"), &typical[tasks - 1], options.rounds)?;
        print_saved(&format!("{tasks} tasks, slow"), &slow[tasks - 1], options.rounds)?;
    }
    print_full_boards("as drawn", &mut dice, 0, options)?;
    print_full_boards("with much to search", &mut dice, MUCH_WORK, options)?;
    // Dice of their own, so that the tables of the other parts stay what they were.
    let own = |part: u64| Dice::new(options.seed ^ part << 32);
    print_cranes(&mut own(1), options.tables / 4 + 1, options.rounds)?;
    print_more(&mut own(2), "with holds", [holding, slow_holding], options)?;
    print_more(&mut own(4), "with a switch", [switching, slow_switching], options)?;
    print_more(&mut own(5), "with a curve in every row", [curved, slow_curved], options)?;
    print_more(&mut own(6), "with deadlines", [deadlined, slow_deadlined], options)?;
    print_anew(&mut own(7), options)?;
    print_busy_interval(options.rounds)?;
    print_full_runs(options.rounds)?;
    print_stack(&mut own(3), options.tables.min(MOST_PIECES));
    if options.climb > 0 {
        print_slowest(&mut dice, options.climb, options.rounds)?;
    }
    Ok(())
}

fn main() -> ExitCode {
    let Some(options) = options() else {
        eprintln!("{USAGE}");
        return ExitCode::from(2);
    };
    println!("seed {}, {} tables for each number of tasks", options.seed, options.tables);
    let Err(Different(text)) = run(&options) else {
        return ExitCode::SUCCESS;
    };
    println!("DIFFERENCE between plain and library, text:\n  \"{}\"", text.escape_ascii());
    ExitCode::FAILURE
}
