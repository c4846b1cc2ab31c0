//! Random texts for the board to watch: boards of few ticks and of many, orders in time and late,
//! lists of lengths shorter and longer than the run, and damage to each of the new lines.

use crate::dice::Dice;
use crate::model::{self, Table, MOST_TASKS};
use crate::tables::{self, Family, FAMILIES, SHORT_FAMILIES};
use crate::texts;
use crate::watches::{self, Finished, Task, Watch};
use crate::watches::{MOST_LENGTHS, MOST_RELEASE, MOST_TICKS, WATCH_ROOM, WATCH_TAKES};

/// Most runs have no more ticks than this.
const SHORT_RUN: u64 = 4_000;

/// The lines that are damaged most, each with numbers on both sides of its limits.
const LINES: [(&[u8], &[u64]); 10] = [
    (b"deadline=", &[0, 1, 2, 999_999, 1_000_000, 1_000_001, 1_000_001]),
    (b"hold=", &[0, 1, 1, 1, 2, 1_000_000, 1_000_001]),
    (b"points=", &[0, 1, 2, 7, 8, 9]),
    (b"delay=", &[0, 1, 999_999, 1_000_000, 1_000_001, 1_000_001]),
    (b"allow=", &[0, 1, 999_999, 1_000_000, 1_000_001, 1_000_001]),
    (b"rank=", &[0, 1, 65_535, 65_536]),
    (b"release=", &[0, 1, 999_999, 1_000_000, 1_000_001, 1_000_001, 1_000_001]),
    (b"ticks=", &[0, 1, 2, 999_999, 1_000_000, 1_000_001]),
    (b"lengths=", &[0, 1, 2_047, 2_048, 2_049]),
    (b"length=", &[0, 1, 2, 1_000_000, 1_000_001]),
];

/// What is no number of the form.
const FORMS: [&[u8]; 17] = [
    b"",
    b"00",
    b"01",
    b"+1",
    b"-1",
    b"-0",
    b" 1",
    b"1 ",
    b"1\r",
    b"1\0",
    b"1.",
    b"1,000",
    b"0x1",
    b"=1",
    b"0000000000001",
    b"1000000000000",
    b"\xc2\xb2",
];

const KEYS: [&[u8]; 14] = [
    b"deadline",
    b"release",
    b"ticks",
    b"lengths",
    b"length",
    b"rank",
    b"hold",
    b"task",
    b"finish",
    b"Release",
    b"tick",
    b"lengthss",
    b"length ",
    b"",
];

const TAILS: [&[u8]; 10] = [
    b"\n",
    b"x",
    b"\0",
    b"length=1\n",
    b"length=1",
    b"lengths=0\n",
    b"ticks=1\n",
    b"release=0\n",
    b"rank=1\n",
    b"board=7\n",
];

// ---- Sound texts ------------------------------------------------------------------------

/// A table without holds, mostly of few rows and short periods. Betas and curves are of no account on
/// a board.
fn table(dice: &mut Dice) -> Table {
    let most = if dice.once_in(16) { MOST_TASKS } else { 4 };
    let families: &[Family] = if dice.once_in(8) { &FAMILIES } else { &SHORT_FAMILIES };
    let (family, count) = (dice.pick(families), 1 + dice.below(most));
    let mut table = tables::any(dice, family, count, true);
    for row in &mut table.rows {
        row.hold = 0;
        row.beta = dice.pick(&[0, row.beta]);
        if dice.once_in(4) {
            row.curve = tables::any_curve(dice);
        }
    }
    table
}

/// Any order, or three times in four one in time if that by period is, its reverse or one of a few
/// others.
fn order(dice: &mut Dice, table: &Table) -> Vec<usize> {
    let mut any: Vec<usize> = (0..table.rows.len()).collect();
    let mut by_period = any.clone();
    by_period.sort_by_key(|&index| table.rows[index].period);
    dice.shuffle(&mut any);
    if dice.once_in(4) {
        return any;
    }
    let mut orders = vec![any, by_period.iter().rev().copied().collect()];
    orders.insert(dice.below(3), by_period);
    let in_time = |order: &&Vec<usize>| model::figures_of_order(table, order).is_ok();
    orders.iter().find(in_time).unwrap_or(&orders[0]).clone()
}

/// First releases: all on one tick, at once or on a later one, on few ticks, some at the limits or
/// anywhere, or all in the first periods.
fn first_releases(dice: &mut Dice, table: &Table) -> Vec<u64> {
    let (kind, meet) = (dice.below(9), dice.any_size(2_000));
    let mut first = |period: u64| match kind {
        0 => 0,
        1 => meet,
        2 => meet % period,
        3 => dice.between(0, 2),
        4 => dice.pick(&[0, 0, 0, 1, meet, MOST_RELEASE - 1, MOST_RELEASE]),
        5 if dice.once_in(3) => dice.between(0, MOST_RELEASE),
        _ => dice.between(0, (2 * period).min(MOST_RELEASE)),
    };
    table.rows.iter().map(|row| first(row.period)).collect()
}

/// The ticks of a run: few, a few periods from the first release or the last on, or now and then as
/// many as there can be, most of these with few releases.
fn ticks(dice: &mut Dice, watch: &Watch) -> u64 {
    let periods = || watch.table.rows.iter().map(|row| row.period);
    let (shortest, longest) = (periods().min().unwrap_or(1), periods().max().unwrap_or(1));
    if dice.once_in(if shortest > 1_000 { 16 } else { 1_000 }) {
        let any = dice.any_size(MOST_TICKS);
        return dice.pick(&[MOST_TICKS, MOST_TICKS, MOST_TICKS - 1, any]);
    }
    let near = || watch.first.iter().filter(|&&first| first <= SHORT_RUN);
    let (soonest, latest) = (near().min().unwrap_or(&0), near().max().unwrap_or(&0));
    match dice.below(24) {
        0 => 1,
        1 | 2 => dice.any_size(60),
        3 | 4 => soonest + dice.any_size(SHORT_RUN),
        5..=10 => soonest + dice.between(1, 6 * longest).min(SHORT_RUN),
        _ => latest + dice.between(longest, 6 * longest).min(SHORT_RUN),
    }
}

/// The ticks at which a job of the run finishes, or one less.
fn ticks_at_a_finish(dice: &mut Dice, watch: &Watch) -> u64 {
    let finished = watch.finished();
    if finished.is_empty() {
        return watch.ticks;
    }
    let finish = finished[dice.below(finished.len())].finish;
    (finish - dice.between(0, 1)).max(1)
}

fn length(dice: &mut Dice, task: &Task) -> u64 {
    match dice.below(5) {
        0 | 1 => task.least,
        2 | 3 => task.most,
        _ => dice.between(task.least, task.most),
    }
}

/// How many lengths there are: none, few, about as many as jobs in the run, twice as many, or at
/// and around the limit.
fn count(dice: &mut Dice, watch: &Watch, tasks: &[Task]) -> usize {
    let most = MOST_LENGTHS as usize;
    let jobs = watches::first_jobs(tasks, most);
    let released = jobs.iter().filter(|job| job.tick < watch.ticks).count();
    match dice.below(12) {
        0..=2 => 0,
        3..=5 => 1 + dice.below(4),
        6 | 7 => released + dice.below(3),
        8 => released.saturating_sub(1),
        9 => 2 * released,
        10 if dice.once_in(4) => dice.pick(&[most - 1, most, most, most + 1]),
        10 => dice.any_size(MOST_LENGTHS) as usize,
        _ => dice.any_size(40) as usize,
    }
    .min(most + 1)
}

fn set_lengths(dice: &mut Dice, watch: &mut Watch, count: usize) {
    let tasks = watch.tasks();
    let jobs = watches::first_jobs(&tasks, count);
    watch.lengths = jobs.iter().map(|job| length(dice, &tasks[job.rank])).collect();
}

/// A board and a run of it, sound but that an order may be late and a list one too long.
fn watch(dice: &mut Dice) -> Watch {
    let table = table(dice);
    let (order, first) = (order(dice, &table), first_releases(dice, &table));
    let mut watch = Watch { table, order, first, ticks: 1, lengths: Vec::new() };
    watch.ticks = ticks(dice, &watch);
    let tasks = watch.tasks();
    let count = count(dice, &watch, &tasks);
    set_lengths(dice, &mut watch, count);
    if watch.ticks <= 2 * SHORT_RUN && dice.once_in(3) {
        watch.ticks = ticks_at_a_finish(dice, &watch);
    }
    watch
}

/// Shorter periods and a smaller switch, so that thousands of jobs are in a run and few are late.
fn hasten(table: &mut Table) {
    let count = table.rows.len() as u64;
    table.switch = table.switch.min(2);
    for row in &mut table.rows {
        row.period = row.period.min(100);
        row.worst = row.worst.min((row.period / count).saturating_sub(table.switch).max(1));
        row.best = row.best.min(row.worst);
        row.deadline = row.deadline.max(row.period);
    }
}

/// The tick at which the first of these jobs finishes whose lines have no room in the program's
/// buffer.
fn end_of_room(finished: &[Finished]) -> Option<u64> {
    let mut length = 0;
    let past = |job: &&Finished| {
        length += job.lines().len();
        length > WATCH_ROOM
    };
    finished.iter().find(past).map(|job| job.finish)
}

/// A run of thousands of jobs, whose lines just have room in the program's buffer or just not, or
/// which goes just past the jobs of the longest list.
fn full(dice: &mut Dice) -> Watch {
    let mut watch = watch(dice);
    hasten(&mut watch.table);
    watch.order.sort_by_key(|&index| watch.table.rows[index].period);
    watch.first.iter_mut().for_each(|first| *first %= 2_000);
    let (most, listed) = (MOST_LENGTHS as usize, dice.once_in(2));
    let count = if listed { most } else { watch.lengths.len().min(most) };
    set_lengths(dice, &mut watch, count);
    watch.ticks = MOST_TICKS / 4;
    let finished = watch.finished();
    let last = finished.get(most + dice.below(3)).map(|job| job.finish);
    let end = if listed { last } else { end_of_room(&finished) };
    watch.ticks = end.map_or(watch.ticks, |finish| finish - dice.between(0, 1));
    watch
}

/// The text of a watch.
pub fn text(watch: &Watch) -> Vec<u8> {
    let Watch { table, order, first, ticks, lengths } = watch;
    let mut text = tables::text(table);
    let mut line = |key: &str, number: u64| text.extend(format!("{key}={number}\n").into_bytes());
    order.iter().for_each(|&index| line("rank", table.rows[index].task));
    first.iter().for_each(|&first| line("release", first));
    line("ticks", *ticks);
    line("lengths", lengths.len() as u64);
    lengths.iter().for_each(|&length| line("length", length));
    text
}

// ---- Damage -----------------------------------------------------------------------------

/// A length that its job cannot last, one below or above what it can or anything; or two lengths
/// exchanged.
fn spoil_a_length(dice: &mut Dice, watch: &mut Watch) {
    if watch.lengths.is_empty() {
        return;
    }
    let tasks = watch.tasks();
    let jobs = watches::first_jobs(&tasks, watch.lengths.len());
    // The last is released past the last tick more often than others.
    let at = if dice.once_in(3) { jobs.len() - 1 } else { dice.below(jobs.len()) };
    let Task { least, most, .. } = tasks[jobs[at].rank];
    match dice.below(6) {
        0 | 1 => watch.lengths[at] = least - 1,
        2 | 3 => watch.lengths[at] = most + 1,
        4 => watch.lengths[at] = dice.any_size(MOST_TICKS),
        _ => {
            let other = if dice.once_in(2) { at.saturating_sub(1) } else { dice.below(jobs.len()) };
            watch.lengths.swap(at, other);
        }
    }
}

/// Does something to a line of the new keys, of the ranks, of the deadlines, of the holds or of the
/// curves.
fn damage_a_line(dice: &mut Dice, lines: &mut Vec<Vec<u8>>) {
    let (key, limits) = dice.pick(&LINES);
    let places: Vec<usize> = (0..lines.len()).filter(|&at| lines[at].starts_with(key)).collect();
    if places.is_empty() {
        return;
    }
    let at = dice.pick(&places);
    let name = &key[..key.len() - 1];
    match dice.below(16) {
        0..=4 => lines[at] = texts::joined(name, dice.pick(limits).to_string().as_bytes()),
        5..=7 => lines[at] = texts::joined(name, dice.pick(&FORMS)),
        8 => drop(lines.remove(at)),
        9 => lines.insert(at, lines[at].clone()),
        10 => lines.swap(at, at.saturating_sub(1)),
        11 => {
            let line = lines.remove(at);
            lines.insert(dice.below(lines.len() + 1), line);
        }
        12 => lines[at] = [dice.pick(&KEYS), &lines[at][key.len() - 1..]].concat(),
        13 => lines.truncate(at),
        14 => drop(lines[at].pop()),
        _ => lines[at].insert(0, dice.pick(b" \t\r\n\0=")),
    }
}

/// A text with a number so long that its line feed is at or around the last byte that the program
/// takes; the call takes all of it.
fn stretched(dice: &mut Dice) -> Vec<u8> {
    let mut text = text(&watch(dice));
    let feeds: Vec<usize> = (0..text.len()).filter(|&at| text[at] == b'\n').collect();
    let feed = dice.pick(&feeds);
    let to = WATCH_TAKES + dice.pick(&[0, 1, 1, 2, 5_000]) - 1;
    text.splice(feed..feed, vec![dice.pick(b"019"); to - feed]);
    text
}

fn damage(dice: &mut Dice, text: &mut Vec<u8>) {
    match dice.below(15) {
        0..=6 => texts::with_lines(text, |lines| damage_a_line(dice, lines)),
        7 => text.extend_from_slice(dice.pick(&TAILS)),
        8 => text.truncate(dice.below(text.len() + 1)),
        9 => texts::with_lines(text, |lines| texts::damage_a_curve(dice, lines)),
        10 => texts::with_lines(text, |lines| texts::damage_a_deadline(dice, lines)),
        _ => texts::damage(dice, text),
    }
}

/// The next text, sound or damaged.
pub fn any(dice: &mut Dice) -> Vec<u8> {
    match dice.below(400) {
        0 => return Vec::new(),
        1 => return texts::garbage(dice),
        2 => return texts::any(dice),
        3 => return stretched(dice),
        4 | 5 => return text(&full(dice)),
        _ => {}
    }
    let mut watch = watch(dice);
    if dice.once_in(10) {
        spoil_a_length(dice, &mut watch);
    }
    let mut text = text(&watch);
    for _ in 0..dice.pick(&[0, 0, 0, 0, 0, 1, 1, 1, 2, 3]) {
        damage(dice, &mut text);
    }
    if dice.once_in(300) {
        text.extend(texts::garbage(dice));
    }
    text
}
