//! Random texts for the planner and the reviewer: sound tables, with and without rank lines, and
//! texts damaged in every way that a file can be.

use crate::dice::Dice;
use crate::model::{Row, Table, MOST_TASKS};
use crate::tables::{self, FAMILIES};

/// Both sides of every limit, of the digits allowed and of the machine's own numbers.
const EDGES: &str =
    "0 1 2 7 8 9 12 13 15 16 17 999 1000 1001 65535 65536 99999 100000 100001 999999 \
    1000000 1000001 200000000000 200000000001 999999999999 1000000000000 0000000000001 4294967297 \
    18446744073709551617 00 01";

const KEYS: [&str; 24] = [
    "board", "tasks", "switch", "task", "period", "deadline", "worst", "best", "alpha", "beta",
    "hold", "points", "delay", "allow", "rank", "Board", "Switch", "Deadline", "dead", "Hold",
    "Points", "point", "plan", "",
];

const TAILS: [&[u8]; 15] = [
    b"\n",
    b"x",
    b"\0",
    b"rank=1\n",
    b"task=1\n",
    b"deadline=1\n",
    b"hold=0\n",
    b"points=0\n",
    b"delay=0\n",
    b"allow=0\n",
    b"switch=0\n",
    b"board=7\n",
    b"rank=1",
    b"\r\n",
    b"\xff\xfe",
];

const BEFORE_NUMBER: [&[u8]; 7] = [b"0", b"+", b"-", b" ", b"=", b"0x", b"\xc2\xa0"];
const AFTER_NUMBER: [&[u8]; 9] =
    [b" ", b"\r", b"\0", b"\xe9", b".0", b"e3", b"_", b"000000000", b"="];

fn odd_byte(dice: &mut Dice) -> u8 {
    match dice.below(4) {
        0 => dice.pick(b"0123456789"),
        1 => dice.pick(b"=\n\r\0-+ aek\t./:"),
        2 => dice.between(128, 255) as u8,
        _ => dice.next() as u8,
    }
}

// ---- Damage to lines --------------------------------------------------------------------

fn split(text: &[u8]) -> Vec<Vec<u8>> {
    text.split_inclusive(|&byte| byte == b'\n').map(<[u8]>::to_vec).collect()
}

/// Does something to the text's lines; a text without any is left alone.
pub fn with_lines(text: &mut Vec<u8>, change: impl FnOnce(&mut Vec<Vec<u8>>)) {
    let mut lines = split(text);
    if !lines.is_empty() {
        change(&mut lines);
        *text = lines.concat();
    }
}

fn double_a_line(dice: &mut Dice, lines: &mut Vec<Vec<u8>>) {
    let from = dice.below(lines.len());
    let to = if dice.once_in(2) { from } else { dice.below(lines.len() + 1) };
    lines.insert(to, lines[from].clone());
}

fn drop_a_line(dice: &mut Dice, lines: &mut Vec<Vec<u8>>) {
    lines.remove(dice.below(lines.len()));
}

fn swap_lines(dice: &mut Dice, lines: &mut [Vec<u8>]) {
    let (one, other) = (dice.below(lines.len()), dice.below(lines.len()));
    lines.swap(one, other);
}

/// A line as its key and its number; the line feed and the equals sign are left out.
fn parts(line: &[u8]) -> Option<(&[u8], &[u8])> {
    let line = line.strip_suffix(b"\n")?;
    let equals = line.iter().position(|&byte| byte == b'=')?;
    Some((&line[..equals], &line[equals + 1..]))
}

pub fn joined(key: &[u8], number: &[u8]) -> Vec<u8> {
    [key, b"=", number, b"\n"].concat()
}

/// Puts a number at or past a limit on some line.
fn set_a_number(dice: &mut Dice, lines: &mut [Vec<u8>]) {
    let line = &mut lines[dice.below(lines.len())];
    let edges: Vec<&str> = EDGES.split(' ').collect();
    if let Some((key, _)) = parts(line) {
        *line = joined(key, dice.pick(&edges).as_bytes());
    }
}

/// Puts the number of another line, plus 0 or 1, on some line: that of one of the two lines before
/// it, or of a row before it for a task. The way to worst above period, best above worst and tasks
/// twice.
fn set_a_number_from_another(dice: &mut Dice, lines: &mut [Vec<u8>]) {
    let tasks: Vec<usize> =
        (0..lines.len()).filter(|&at| lines[at].starts_with(b"task=")).collect();
    let (at, from) = if tasks.len() > 1 && dice.once_in(2) {
        let later = 1 + dice.below(tasks.len() - 1);
        (tasks[later], tasks[dice.below(later)])
    } else {
        let at = dice.below(lines.len());
        (at, at.saturating_sub(1 + dice.below(2)))
    };
    copy_a_number(dice, lines, at, at - from);
}

/// Puts the number of the line so many lines before it, plus 0 or 1, on a line.
fn copy_a_number(dice: &mut Dice, lines: &mut [Vec<u8>], at: usize, back: usize) {
    let (key, number) = (parts(&lines[at]), parts(&lines[at.saturating_sub(back)]));
    let (Some((key, _)), Some((_, number))) = (key, number) else {
        return;
    };
    let Ok(number) = String::from_utf8_lossy(number).parse::<u64>() else {
        return;
    };
    let number = number.saturating_add(dice.between(0, 1));
    lines[at] = joined(key, number.to_string().as_bytes());
}

/// The line of a hold: at its limits, at the worst time or one past it, from a line of another key,
/// before its beta, twice, or gone, of one row or of all as in a table from before the holds.
fn damage_a_hold(dice: &mut Dice, lines: &mut Vec<Vec<u8>>) {
    let holds = (0..lines.len()).filter(|&at| lines[at].starts_with(b"hold="));
    let holds: Vec<usize> = holds.collect();
    if holds.is_empty() {
        return;
    }
    let at = dice.pick(&holds);
    match dice.below(10) {
        0 => lines[at] = dice.pick(&["hold=1000000\n", "hold=1000001\n"]).into(),
        1..=3 => copy_a_number(dice, lines, at, 4),
        4 => copy_a_number(dice, lines, at, 1),
        5 => copy_a_number(dice, lines, at, 6),
        6 => lines.swap(at, at.saturating_sub(1)),
        7 => lines.insert(at, lines[at].clone()),
        8 => drop(lines.remove(at)),
        _ => lines.retain(|line| !line.starts_with(b"hold=")),
    }
}

/// What stands on the line of a deadline: both sides of its limits, and forms that are none.
const DEADLINES: &str = "0 1 2 999999 1000000 1000001 1000001 999999999999 1000000000000 00 01 \
    0000000000001 +1 -1 -0 1. x =1";

/// The line of a deadline: its number, that of the period, of the worst time or of the best, or one
/// beside these, none of which is a fault; its place, before the period, after the worst time or
/// anywhere; twice, with another key, or gone, of one row or of all as in a table from before there
/// were deadlines.
pub fn damage_a_deadline(dice: &mut Dice, lines: &mut Vec<Vec<u8>>) {
    let deadlines = lines_with(lines, b"deadline=");
    if deadlines.is_empty() {
        return;
    }
    let at = dice.pick(&deadlines);
    let forms: Vec<&str> = DEADLINES.split(' ').collect();
    match dice.below(16) {
        0..=3 => lines[at] = joined(b"deadline", dice.pick(&forms).as_bytes()),
        4 => lines[at] = joined(b"deadline", dice.pick(&BLANKS)),
        5 => copy_a_number(dice, lines, at, 1),
        6 | 7 => {
            let from = (at + 1 + dice.below(2)).min(lines.len() - 1);
            let number = number_on(lines, from).unwrap_or(1).saturating_sub(dice.between(0, 1));
            lines[at] = joined(b"deadline", number.to_string().as_bytes());
        }
        8 => lines.swap(at, at.saturating_sub(1)),
        9 if at + 1 < lines.len() => lines.swap(at, at + 1),
        10 => lines.insert(at, lines[at].clone()),
        11 => drop(lines.remove(at)),
        12 => lines.retain(|line| !line.starts_with(b"deadline=")),
        13 => {
            let number = number_on(lines, at).unwrap_or(1);
            let key = dice.pick(&["Deadline", "dead", "deadlines", " deadline", "period", "worst"]);
            lines[at] = joined(key.as_bytes(), number.to_string().as_bytes());
        }
        14 => drop(lines[at].pop()),
        _ => {
            let line = lines.remove(at);
            lines.insert(dice.below(lines.len() + 1), line);
        }
    }
}

/// Takes a number away, or puts something before or after it.
fn spoil_a_number(dice: &mut Dice, lines: &mut [Vec<u8>]) {
    let line = &mut lines[dice.below(lines.len())];
    let Some((key, number)) = parts(line) else {
        return;
    };
    let spoiled = match dice.below(5) {
        0 => Vec::new(),
        1 | 2 => [dice.pick(&BEFORE_NUMBER), number].concat(),
        _ => [number, dice.pick(&AFTER_NUMBER)].concat(),
    };
    *line = joined(key, &spoiled);
}

/// Pads a number with zeros or gives it digits up to the twelve allowed and one more.
fn stretch_a_number(dice: &mut Dice, lines: &mut [Vec<u8>]) {
    let line = &mut lines[dice.below(lines.len())];
    let Some((key, number)) = parts(line) else {
        return;
    };
    let digits = dice.between(11, 14) as usize;
    let missing = vec![b'0'; digits.saturating_sub(number.len())];
    let stretched =
        if dice.once_in(2) { [&missing, number].concat() } else { [number, &missing].concat() };
    *line = joined(key, &stretched);
}

fn change_a_key(dice: &mut Dice, lines: &mut [Vec<u8>]) {
    let line = &mut lines[dice.below(lines.len())];
    if let Some((_, number)) = parts(line) {
        *line = joined(dice.pick(&KEYS).as_bytes(), number);
    }
}

/// CR LF at the end of one line or of all.
fn end_lines_with_cr(dice: &mut Dice, lines: &mut [Vec<u8>]) {
    let one = dice.below(lines.len());
    let ended = if dice.once_in(2) { lines } else { &mut lines[one..=one] };
    for line in ended {
        if line.ends_with(b"\n") {
            line.insert(line.len() - 1, b'\r');
        }
    }
}

// ---- Damage to the switch ---------------------------------------------------------------

/// What stands on the line of the switch: both sides of its limits, and forms that are none.
const SWITCHES: &str = "0 1 2 5 999 1000 1001 9999 999999999999 1000000000000 0000000000001 00 01 \
    01000 +1 -1 -0 1. x =1";
const BLANKS: [&[u8]; 5] = [b"", b" ", b" 1", b"1 ", b"1\r"];

fn number_on(lines: &[Vec<u8>], at: usize) -> Option<u64> {
    String::from_utf8_lossy(parts(lines.get(at)?)?.1).parse().ok()
}

/// The number on the line of the switch: at a limit, of another form, none, or that of some line.
fn set_the_switch(dice: &mut Dice, lines: &mut [Vec<u8>], at: usize) {
    let forms: Vec<&str> = SWITCHES.split(' ').collect();
    match dice.below(5) {
        0 => lines[at] = joined(b"switch", dice.pick(&BLANKS)),
        1 => {
            let from = dice.below(lines.len());
            if let Some(number) = number_on(lines, from) {
                lines[at] = format!("switch={number}\n").into_bytes();
            }
        }
        _ => lines[at] = joined(b"switch", dice.pick(&forms).as_bytes()),
    }
}

/// Puts the line of the switch elsewhere: before the tasks or the board, after the first task,
/// behind a row, to the end or anywhere; with `stays` it stands in its own place too.
fn move_the_switch(dice: &mut Dice, lines: &mut Vec<Vec<u8>>, at: usize, stays: bool) {
    let line = if stays { lines[at].clone() } else { lines.remove(at) };
    let starts_a_row = |at: &usize| lines[*at].starts_with(b"task=");
    let rows: Vec<usize> = (0..lines.len()).filter(starts_a_row).collect();
    let first = rows.first().map_or(0, |first| first + 1);
    let to = match dice.below(6) {
        0 => at.saturating_sub(1),
        1 => 0,
        2 => first,
        3 if !rows.is_empty() => dice.pick(&rows),
        4 => lines.len(),
        _ => dice.below(lines.len() + 1),
    };
    lines.insert(to.min(lines.len()), line);
}

/// Puts a row's number where the switch decides what is said of it: the worst time at the period
/// less the switch or one past it, the best time or the hold from the worst time to one past what a
/// job lasts.
fn set_beside_the_switch(dice: &mut Dice, lines: &mut [Vec<u8>], at: usize) {
    let rows: Vec<usize> =
        (0..lines.len()).filter(|&at| lines[at].starts_with(b"period=")).collect();
    if rows.is_empty() {
        return;
    }
    let row = dice.pick(&rows);
    let numbers = [at, row, row + 2].map(|at| number_on(lines, at));
    let [Some(switch), Some(period), Some(worst)] = numbers else {
        return;
    };
    let one = dice.between(0, 1);
    let over = worst.saturating_add(dice.pick(&[0, 1, switch, switch.saturating_add(1)]));
    let (back, key, number) = match dice.below(4) {
        0 | 1 => (2, "worst", period.saturating_sub(switch).saturating_add(one)),
        2 => (3, "best", over),
        _ => (6, "hold", over),
    };
    if let Some(line) = lines.get_mut(row + back) {
        *line = format!("{key}={number}\n").into_bytes();
    }
}

/// The line of the switch: its number, its place, gone, doubled, or beside the numbers of a row.
fn damage_the_switch(dice: &mut Dice, lines: &mut Vec<Vec<u8>>) {
    let Some(at) = lines.iter().position(|line| line.starts_with(b"switch=")) else {
        return;
    };
    match dice.below(10) {
        0..=2 => set_the_switch(dice, lines, at),
        3 => drop(lines.remove(at)),
        4 => lines.insert(at, lines[at].clone()),
        5 => move_the_switch(dice, lines, at, true),
        6 => move_the_switch(dice, lines, at, false),
        _ => set_beside_the_switch(dice, lines, at),
    }
}

// ---- Damage to curves -------------------------------------------------------------------

/// What stands on the line of the points, and on those of a delay and an allow: both sides of their
/// limits, and forms that are none.
const POINTS: &str = "0 1 2 7 8 9 10 16 999999999999 1000000000000 00 01 08 +1 -1 -0 1. x =1";
const TICKS: &str = "0 1 999999 1000000 1000001 999999999999 1000000000000 00 01 +1 -1 -0 1. x =1";

fn lines_with(lines: &[Vec<u8>], key: &[u8]) -> Vec<usize> {
    (0..lines.len()).filter(|&at| lines[at].starts_with(key)).collect()
}

/// The line of the points: its number, one more or fewer than there are, gone, twice, before the
/// hold, after the pairs, or gone from all rows as in a table from before the curves.
fn damage_the_points(dice: &mut Dice, lines: &mut Vec<Vec<u8>>, at: usize) {
    let forms: Vec<&str> = POINTS.split(' ').collect();
    match dice.below(10) {
        0..=2 => lines[at] = joined(b"points", dice.pick(&forms).as_bytes()),
        3 | 4 => {
            let there = number_on(lines, at).unwrap_or(0);
            let other = if dice.once_in(2) { there + 1 } else { there.saturating_sub(1) };
            lines[at] = joined(b"points", other.to_string().as_bytes());
        }
        5 => drop(lines.remove(at)),
        6 => lines.insert(at, lines[at].clone()),
        7 => lines.swap(at, at.saturating_sub(1)),
        8 => {
            let line = lines.remove(at);
            let to = at + 2 * dice.below(3);
            lines.insert(to.min(lines.len()), line);
        }
        _ => lines.retain(|line| !line.starts_with(b"points=")),
    }
}

/// The line of a delay or of an allow: beside that of the pair before it, at its limits, of another
/// form, gone, twice, exchanged with the line before it, with the other key, or without a line feed.
fn damage_a_point(dice: &mut Dice, lines: &mut Vec<Vec<u8>>, at: usize) {
    let key: &[u8] = if lines[at].starts_with(b"delay=") { b"delay" } else { b"allow" };
    let other: &[u8] = if key == b"delay" { b"allow" } else { b"delay" };
    let forms: Vec<&str> = TICKS.split(' ').collect();
    let before = at.checked_sub(2).and_then(|before| number_on(lines, before));
    match (dice.below(14), before) {
        (0..=5, Some(before)) => {
            let beside = before.saturating_add(dice.between(0, 2)).saturating_sub(1);
            lines[at] = joined(key, beside.to_string().as_bytes());
        }
        (6 | 7, _) => lines[at] = joined(key, dice.pick(&forms).as_bytes()),
        (8, _) => drop(lines.remove(at)),
        (9, _) => lines.insert(at, lines[at].clone()),
        (10, _) => lines.swap(at, at - 1),
        (11, _) => {
            let number = number_on(lines, at).unwrap_or(0);
            lines[at] = joined(other, number.to_string().as_bytes());
        }
        (12, _) => lines[at] = joined(key, dice.pick(&BLANKS)),
        _ => drop(lines[at].pop()),
    }
}

/// A pair: gone, twice, exchanged with the next, or one more at its end.
fn damage_a_pair(dice: &mut Dice, lines: &mut Vec<Vec<u8>>, at: usize) {
    let Some(pair) = lines.get(at..at + 2).map(<[_]>::to_vec) else {
        return;
    };
    match dice.below(4) {
        0 => drop(lines.drain(at..at + 2)),
        1 if at + 4 <= lines.len() => lines[at..at + 4].rotate_left(2),
        2 => {
            let last = [pair[0].clone(), b"allow=0\n".to_vec()];
            drop(lines.splice(at + 2..at + 2, last));
        }
        _ => drop(lines.splice(at..at, pair)),
    }
}

/// The lines of a curve; a row without points has only the first of them.
pub fn damage_a_curve(dice: &mut Dice, lines: &mut Vec<Vec<u8>>) {
    let (points, delays) = (lines_with(lines, b"points="), lines_with(lines, b"delay="));
    let kind = dice.below(4);
    if delays.is_empty() || kind == 0 {
        if !points.is_empty() {
            let at = dice.pick(&points);
            damage_the_points(dice, lines, at);
        }
        return;
    }
    let delay = dice.pick(&delays);
    match kind {
        1 => damage_a_pair(dice, lines, delay),
        _ => {
            let at = (delay + dice.below(2)).min(lines.len() - 1);
            damage_a_point(dice, lines, at);
        }
    }
}

// ---- Damage to bytes --------------------------------------------------------------------

fn change_a_byte(dice: &mut Dice, text: &mut [u8]) {
    if !text.is_empty() {
        let at = dice.below(text.len());
        text[at] = odd_byte(dice);
    }
}

fn insert_a_byte(dice: &mut Dice, text: &mut Vec<u8>) {
    let at = dice.below(text.len() + 1);
    text.insert(at, odd_byte(dice));
}

fn remove_a_byte(dice: &mut Dice, text: &mut Vec<u8>) {
    if !text.is_empty() {
        text.remove(dice.below(text.len()));
    }
}

/// Damages the text in one way.
pub fn damage(dice: &mut Dice, text: &mut Vec<u8>) {
    match dice.below(26) {
        0 => text.truncate(dice.below(text.len() + 1)),
        1 | 2 => change_a_byte(dice, text),
        3 => insert_a_byte(dice, text),
        4 => remove_a_byte(dice, text),
        5 => with_lines(text, |lines| double_a_line(dice, lines)),
        6 => with_lines(text, |lines| swap_lines(dice, lines)),
        7 => with_lines(text, |lines| drop_a_line(dice, lines)),
        8 | 9 => with_lines(text, |lines| set_a_number(dice, lines)),
        10 | 11 => with_lines(text, |lines| set_a_number_from_another(dice, lines)),
        12 => with_lines(text, |lines| spoil_a_number(dice, lines)),
        13 => with_lines(text, |lines| stretch_a_number(dice, lines)),
        14 => with_lines(text, |lines| match dice.below(3) {
            0 => end_lines_with_cr(dice, lines),
            _ => change_a_key(dice, lines),
        }),
        15 => with_lines(text, |lines| damage_a_hold(dice, lines)),
        16 | 17 => with_lines(text, |lines| damage_the_switch(dice, lines)),
        18..=21 => with_lines(text, |lines| damage_a_curve(dice, lines)),
        22..=24 => with_lines(text, |lines| damage_a_deadline(dice, lines)),
        _ => text.extend_from_slice(dice.pick(&TAILS)),
    }
}

// ---- Whole texts ------------------------------------------------------------------------

/// Rank lines for a table: most of the time each task once, else one of the faults they can have.
fn rank_lines(dice: &mut Dice, rows: &[Row]) -> Vec<u8> {
    let mut order = rows.to_vec();
    dice.shuffle(&mut order);
    if dice.once_in(2) {
        order.sort_by_key(|row| row.period);
    }
    let mut ranks: Vec<u64> = order.iter().map(|row| row.task).collect();
    let (one, other) = (dice.below(ranks.len()), dice.below(ranks.len()));
    match dice.below(12) {
        0 => ranks[one] = ranks[other],
        1 => ranks[one] = dice.any_size(65_535),
        2 => drop(ranks.remove(one)),
        3 => ranks.insert(one, ranks[other]),
        4 => ranks[one] = dice.pick(&[0, 65_535, 65_536]),
        _ => {}
    }
    ranks.iter().flat_map(|task| format!("rank={task}\n").into_bytes()).collect()
}

/// A table, of few rows most of the time, so that a million texts take a minute or two.
fn small_table(dice: &mut Dice) -> Table {
    let most = if dice.once_in(16) { MOST_TASKS } else { 4 };
    let count = 1 + dice.below(most);
    let family = dice.pick(&FAMILIES);
    tables::any(dice, family, count, false)
}

/// Bytes that are no table at all, up to far beyond any table's length.
pub fn garbage(dice: &mut Dice) -> Vec<u8> {
    let length = dice.any_size(60_000) as usize;
    let kind = dice.below(4);
    (0..length)
        .map(|_| match kind {
            0 => dice.next() as u8,
            1 => dice.pick(b"board=tasks\n0123456789"),
            2 => b'\n',
            _ => odd_byte(dice),
        })
        .collect()
}

/// A first line with far too long a number, or a great many lines.
fn overlong(dice: &mut Dice) -> Vec<u8> {
    let mut text = b"board=".to_vec();
    text.resize(dice.any_size(40_000) as usize, dice.pick(b"0179\n="));
    text.push(b'\n');
    text
}

/// The next text, sound or damaged.
pub fn any(dice: &mut Dice) -> Vec<u8> {
    match dice.below(400) {
        0 => return Vec::new(),
        1 => return garbage(dice),
        2 => return overlong(dice),
        _ => {}
    }
    let table = small_table(dice);
    let mut text = tables::text(&table);
    if dice.once_in(2) {
        text.extend(rank_lines(dice, &table.rows));
    }
    for _ in 0..dice.pick(&[0, 1, 1, 1, 1, 2, 3]) {
        damage(dice, &mut text);
    }
    if dice.once_in(200) {
        text.extend(garbage(dice));
    }
    text
}
