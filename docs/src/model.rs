//! The planner and the reviewer of document 01 with the holds of request 2, the sixteen tasks of
//! request 3, the switch of request 4, the curves of request 7 and the deadlines of request 8, and
//! the crane of request 1, written from those papers alone.
//!
//! Nothing here is clever, and nothing follows the product: lines are an indexed list, figures
//! are found by walking the points where a sum can change, and orders by trying every
//! permutation (up to seven tasks) or by growing stable orders from the highest rank down. The
//! pieces of a crane are groups of lines.

use std::collections::BTreeMap;

/// A table has no more tasks than this.
pub const MOST_TASKS: usize = 16;

/// A planned table has no longer holds.
const MOST_HOLD: u64 = 1_000_000;

/// A task is late if one of its jobs takes longer than this from the start of a busy interval.
pub const MOST_FINISH: u64 = 1_000_000;

/// A row's curve has no more points than this, and no larger numbers.
pub const MOST_POINTS: usize = 8;
pub const MOST_DELAY: u64 = 1_000_000;
pub const MOST_ALLOW: u64 = 1_000_000;

/// Tables with more tasks than this are ordered by `order_by_growing`.
const PERMUTED_AT_MOST: usize = 7;

/// The bytes of its input that a program takes: the planner and the reviewer, and the crane. The
/// watcher's are in `watches`.
pub const TABLE_TAKES: usize = 16_384;
pub const CRANE_TAKES: usize = 65_536;

/// A crane's text of more pieces is refused.
pub const MOST_PIECES: usize = 32;

/// A point of a row's curve: the jitter that is permitted where the earliest response is the delay.
#[derive(Clone, Copy, Debug, PartialEq)]
pub struct Point {
    pub delay: u64,
    pub allow: u64,
}

#[derive(Clone, Debug, PartialEq)]
pub struct Row {
    pub task: u64,
    pub period: u64,
    /// The latest response may be past the period, but not past this.
    pub deadline: u64,
    pub worst: u64,
    pub best: u64,
    pub alpha: u64,
    pub beta: u64,
    pub hold: u64,
    /// Without points the condition is the straight line of alpha and beta.
    pub curve: Vec<Point>,
}

#[derive(Clone, Copy, Debug, PartialEq)]
pub struct Figures {
    pub best: u64,
    pub worst: u64,
    pub jitter: u64,
    pub margin: i64,
}

/// A refusal's number, and its line or rank, or 0.
#[derive(Clone, Copy, Debug, PartialEq)]
pub struct Refusal {
    pub number: u64,
    pub place: u64,
}

/// What a call answers beside the buffer: the number and the place are 0 for a written text.
#[derive(Clone, Copy, Debug, PartialEq)]
pub struct Answer {
    pub number: u64,
    pub place: u64,
    pub length: u64,
}

/// What a text comes to before the buffer's length is looked at: the text to be written or a
/// refusal.
pub type Outcome = Result<Vec<u8>, Refusal>;

#[derive(Clone, Debug, PartialEq)]
pub struct Table {
    pub board: u64,
    /// The ticks that a job of any row may last beyond its worst time.
    pub switch: u64,
    pub rows: Vec<Row>,
}

// ---- Reading ----------------------------------------------------------------------------

/// The text as a list of lines; each still has its line feed, save perhaps the last.
pub fn lines_of(text: &[u8]) -> Vec<&[u8]> {
    text.split_inclusive(|&byte| byte == b'\n').collect()
}

/// The number of the form allowed, if these bytes are one.
fn decimal(bytes: &[u8]) -> Option<u64> {
    let digits = std::str::from_utf8(bytes).ok()?;
    let plain = digits.bytes().all(|byte| byte.is_ascii_digit());
    let padded = digits.len() > 1 && digits.starts_with('0');
    if !plain || padded || digits.len() > 12 {
        return None;
    }
    digits.parse().ok()
}

/// What follows `key=` on a line that has its line feed.
fn after_key<'a>(line: &'a [u8], key: &str) -> Option<&'a [u8]> {
    line.strip_suffix(b"\n")?.strip_prefix(key.as_bytes())?.strip_prefix(b"=")
}

/// The number on a line, or the refusal (1, 2 or 3) of that line.
pub fn number_at(
    lines: &[&[u8]],
    place: usize,
    key: &str,
    low: u64,
    high: u64,
) -> Result<u64, Refusal> {
    let refusal = |number| Refusal { number, place: place as u64 };
    let line = lines.get(place - 1).ok_or(refusal(1))?;
    let bytes = after_key(line, key).ok_or(refusal(1))?;
    let number = decimal(bytes).ok_or(refusal(2))?;
    if number < low || number > high {
        return Err(refusal(3));
    }
    Ok(number)
}

pub fn refuse_if(condition: bool, number: u64, place: usize) -> Result<(), Refusal> {
    if condition {
        return Err(Refusal { number, place: place as u64 });
    }
    Ok(())
}

/// The curve whose first line, that of its number of points, is at `place`; each point has two lines.
fn curve_at(lines: &[&[u8]], place: usize) -> Result<Vec<Point>, Refusal> {
    let points = number_at(lines, place, "points", 0, MOST_POINTS as u64)?;
    let mut curve: Vec<Point> = Vec::new();
    for index in 0..points as usize {
        let (at, before) = (place + 1 + 2 * index, curve.last().copied());
        let delay = number_at(lines, at, "delay", 0, MOST_DELAY)?;
        refuse_if(before.is_some_and(|before| delay <= before.delay), 11, at)?;
        let allow = number_at(lines, at + 1, "allow", 0, MOST_ALLOW)?;
        refuse_if(before.is_some_and(|before| allow > before.allow), 11, at + 1)?;
        curve.push(Point { delay, allow });
    }
    Ok(curve)
}

/// The row whose first line is at `place`, after the rows `before`.
fn row_at(
    lines: &[&[u8]],
    place: usize,
    switch: u64,
    most_hold: u64,
    before: &[Row],
) -> Result<Row, Refusal> {
    let task = number_at(lines, place, "task", 1, 65_535)?;
    refuse_if(before.iter().any(|row| row.task == task), 5, place)?;
    let period = number_at(lines, place + 1, "period", 1, 1_000_000)?;
    let deadline = number_at(lines, place + 2, "deadline", 1, 1_000_000)?;
    let worst = number_at(lines, place + 3, "worst", 1, 1_000_000)?;
    refuse_if(worst + switch > period, 4, place + 3)?;
    let best = number_at(lines, place + 4, "best", 1, 1_000_000)?;
    refuse_if(best > worst, 4, place + 4)?;
    let alpha = number_at(lines, place + 5, "alpha", 1_000, 100_000)?;
    let beta = number_at(lines, place + 6, "beta", 0, 200_000_000_000)?;
    let hold = number_at(lines, place + 7, "hold", 0, most_hold)?;
    refuse_if(hold > worst, 4, place + 7)?;
    let curve = curve_at(lines, place + 8)?;
    Ok(Row { task, period, deadline, worst, best, alpha, beta, hold, curve })
}

/// The table at the start of the text, and how many lines it takes; no hold may be above
/// `most_hold`.
pub fn table_at_start(lines: &[&[u8]], most_hold: u64) -> Result<(Table, usize), Refusal> {
    let board = number_at(lines, 1, "board", 1, 65_535)?;
    let tasks = number_at(lines, 2, "tasks", 1, MOST_TASKS as u64)? as usize;
    let switch = number_at(lines, 3, "switch", 0, 1_000)?;
    let (mut rows, mut taken) = (Vec::new(), 3);
    for _ in 0..tasks {
        let row = row_at(lines, taken + 1, switch, most_hold, &rows)?;
        taken += 9 + 2 * row.curve.len();
        rows.push(row);
    }
    Ok((Table { board, switch, rows }, taken))
}

/// Refusal 1 at the first line too many.
pub fn nothing_after(lines: &[&[u8]], taken: usize) -> Result<(), Refusal> {
    refuse_if(lines.len() > taken, 1, taken + 1)
}

pub fn read_table(text: &[u8]) -> Result<Table, Refusal> {
    let lines = lines_of(text);
    let (table, taken) = table_at_start(&lines, MOST_HOLD)?;
    nothing_after(&lines, taken)?;
    Ok(table)
}

/// The rows in the order given by the rank lines after those taken, highest first.
pub fn ranks_after(lines: &[&[u8]], taken: usize, rows: &[Row]) -> Result<Vec<usize>, Refusal> {
    let mut order = Vec::new();
    for place in taken + 1..=taken + rows.len() {
        let task = number_at(lines, place, "rank", 1, 65_535)?;
        let found = rows.iter().position(|row| row.task == task);
        let unnamed = found.filter(|index| !order.contains(index));
        order.push(unnamed.ok_or(Refusal { number: 6, place: place as u64 })?);
    }
    Ok(order)
}

/// A table and the order of its rank lines.
fn read_ranked(text: &[u8]) -> Result<(Table, Vec<usize>), Refusal> {
    let lines = lines_of(text);
    let (table, taken) = table_at_start(&lines, MOST_HOLD)?;
    let order = ranks_after(&lines, taken, &table.rows)?;
    nothing_after(&lines, taken + order.len())?;
    Ok((table, order))
}

// ---- Figures ----------------------------------------------------------------------------

/// A row's blocking time, for what is below it: the largest hold there, less 1. The tick less
/// is the one in which the stretch begins.
fn blocking(below: &[&Row]) -> u64 {
    let largest = below.iter().map(|under| under.hold).max().unwrap_or(0);
    if largest > 0 {
        largest - 1
    } else {
        0
    }
}

/// What the tasks above take of a busy interval, with the blocking time that begins it.
///
/// It changes only just after a multiple of a period above, so it is one number from there up to the
/// next such point, that point included. A walk goes from each of these spans to the next.
struct Others<'a> {
    switch: u64,
    above: &'a [&'a Row],
    /// The next multiple of each period above; the least of them is the end of the span.
    points: Vec<u64>,
    /// What is taken of any window that ends in the span.
    demand: u64,
}

impl Others<'_> {
    fn new<'a>(switch: u64, above: &'a [&'a Row], below: &[&Row]) -> Others<'a> {
        let once = above.iter().map(|over| over.worst + switch).sum::<u64>();
        let points = above.iter().map(|over| over.period).collect();
        Others { switch, above, points, demand: blocking(below) + once }
    }

    /// The smallest window, up to `most`, that is just what `own` ticks and the others take of it. It
    /// ends in the first span whose end it does not pass. The walk goes on where it was: where fewer
    /// ticks of its own left no room, more leave none.
    fn window_with(&mut self, own: u64, most: u64) -> Option<u64> {
        while own + self.demand <= most {
            let end = self.points.iter().copied().min().unwrap_or(most);
            if own + self.demand <= end {
                return Some(own + self.demand);
            }
            for (point, over) in self.points.iter_mut().zip(self.above) {
                if *point == end {
                    *point += over.period;
                    self.demand += over.worst + self.switch;
                }
            }
        }
        None
    }
}

/// When the jobs of a row between `above` and `below` are done at the latest, counted from the start
/// of a busy interval: request 8's w(0), w(1) and so on up to the first that is done by the next
/// release; none if the row is late. A job of any row may last its worst time and the switch; a
/// stretch has no part of the switch.
///
/// A job is released a period after the one before it. The first whose response would be past the
/// deadline, or that would be done past `MOST_FINISH`, makes the row late.
pub fn finishes(switch: u64, row: &Row, above: &[&Row], below: &[&Row]) -> Option<Vec<u64>> {
    let mut others = Others::new(switch, above, below);
    let mut finishes = Vec::new();
    loop {
        let (jobs, release) = (finishes.len() as u64 + 1, finishes.len() as u64 * row.period);
        let most = MOST_FINISH.min(release + row.deadline);
        let finish = others.window_with(jobs * (row.worst + switch), most)?;
        finishes.push(finish);
        if finish <= release + row.period {
            return Some(finishes);
        }
    }
}

/// The latest response of a row between `above` and `below`, or none if it is late: the longest of
/// those of its jobs in a busy interval.
pub fn latest(switch: u64, row: &Row, above: &[&Row], below: &[&Row]) -> Option<u64> {
    let finishes = finishes(switch, row, above, below)?;
    let response = |(q, finish): (usize, &u64)| finish - q as u64 * row.period;
    finishes.iter().enumerate().map(response).max()
}

/// The ticks of a busy interval of the row at a rank of an order; 0 if it is late there.
pub fn busy_ticks(table: &Table, order: &[usize], rank: usize) -> u64 {
    let ranked: Vec<&Row> = order.iter().map(|&index| &table.rows[index]).collect();
    let finishes = finishes(table.switch, ranked[rank], &ranked[..rank], &ranked[rank + 1..]);
    finishes.and_then(|finishes| finishes.last().copied()).unwrap_or(0)
}

/// The earliest response of a row whose latest is `latest`: the best time where the row's own hold
/// is 2 or more; otherwise the spans on which the right side has one value are walked downward, and
/// the first that has its own value in it gives it.
pub fn earliest(row: &Row, above: &[&Row], latest: u64) -> u64 {
    if row.hold >= 2 {
        return row.best;
    }
    let mut whole: Vec<u64> = above.iter().map(|over| latest.div_ceil(over.period) - 1).collect();
    loop {
        let begins = whole.iter().zip(above).map(|(count, over)| count * over.period);
        let begin = begins.max().unwrap_or(0);
        let rest: u64 = whole.iter().zip(above).map(|(count, over)| count * over.best).sum();
        if row.best + rest > begin {
            return row.best + rest;
        }
        for (count, over) in whole.iter_mut().zip(above) {
            if *count * over.period == begin {
                *count -= 1;
            }
        }
    }
}

/// A fraction whose lower number is above 0.
#[derive(Clone, Copy, Debug, PartialEq)]
struct Fraction {
    upper: i128,
    lower: i128,
}

/// The jitter that a curve permits at an earliest response; none past its last delay. Up to the
/// first delay it is the first allow; between two points each has its part, which is the larger the
/// farther away the other is.
fn permitted(curve: &[Point], earliest: u64) -> Option<Fraction> {
    let at = i128::from(earliest);
    let numbers = |point: &Point| (i128::from(point.delay), i128::from(point.allow));
    let (delay, allow) = numbers(curve.first()?);
    if at <= delay {
        return Some(Fraction { upper: allow, lower: 1 });
    }
    let pair = curve.windows(2).find(|pair| earliest <= pair[1].delay)?;
    let ((delay, allow), (next_delay, next_allow)) = (numbers(&pair[0]), numbers(&pair[1]));
    let upper = allow * (next_delay - at) + next_allow * (at - delay);
    Some(Fraction { upper, lower: next_delay - delay })
}

/// The margin of a row with points: a thousand times what is permitted beyond the jitter, rounded
/// down, or a thousand times how far the last delay is behind.
pub fn margin_by_curve(curve: &[Point], earliest: u64, jitter: u64) -> i64 {
    let Some(Fraction { upper, lower }) = permitted(curve, earliest) else {
        let last = curve.last().map_or(0, |point| point.delay);
        return 1_000 * (last as i64 - earliest as i64);
    };
    let beyond = 1_000 * (upper - i128::from(jitter) * lower);
    // With a lower number above 0 this rounds towards minus infinity.
    beyond.div_euclid(lower) as i64
}

/// The margin of a row without points.
fn margin_by_line(row: &Row, earliest: u64, jitter: u64) -> i64 {
    row.beta as i64 - (1_000 * earliest + row.alpha * jitter) as i64
}

/// All figures of a row between `above` and `below`, or none if it is late.
pub fn figures(switch: u64, row: &Row, above: &[&Row], below: &[&Row]) -> Option<Figures> {
    let worst = latest(switch, row, above, below)?;
    let best = earliest(row, above, worst);
    let jitter = worst - best;
    let margin = match row.curve.as_slice() {
        [] => margin_by_line(row, best, jitter),
        curve => margin_by_curve(curve, best, jitter),
    };
    Some(Figures { best, worst, jitter, margin })
}

// ---- Orders -----------------------------------------------------------------------------

/// The rows of a set; bit i of the set stands for row i.
fn rows_in(rows: &[Row], set: u32) -> Vec<&Row> {
    let named = rows.iter().enumerate().filter(|(index, _)| set >> index & 1 == 1);
    named.map(|(_, row)| row).collect()
}

/// Whether a row is stable below a set; all the others are then below it.
fn is_stable(table: &Table, index: usize, above: u32) -> bool {
    let rows = &table.rows;
    let (over, under) = (rows_in(rows, above), rows_in(rows, !(above | 1 << index)));
    figures(table.switch, &rows[index], &over, &under).is_some_and(|figures| figures.margin >= 0)
}

/// Steps to the next permutation in the sequence of dictionaries; false after the last.
fn next_permutation(list: &mut [usize]) -> bool {
    let Some(pivot) = (1..list.len()).rev().find(|&at| list[at - 1] < list[at]) else {
        return false;
    };
    let larger = (pivot..list.len()).rev().find(|&at| list[at] > list[pivot - 1]);
    list.swap(pivot - 1, larger.expect("the pivot itself is larger"));
    list[pivot..].reverse();
    true
}

/// The first stable permutation, lowest rank first: written so, the sequence of dictionaries is
/// the paper's rule.
fn order_by_permutations(table: &Table) -> Option<Vec<usize>> {
    let tasks = table.rows.len();
    let mut known = vec![None; tasks << tasks];
    let mut order: Vec<usize> = (0..tasks).collect();
    loop {
        let mut above = (1u32 << tasks) - 1;
        let stable = order.iter().all(|&index| {
            above &= !(1 << index);
            let slot = &mut known[index << tasks | above as usize];
            *slot.get_or_insert_with(|| is_stable(table, index, above))
        });
        if stable {
            return Some(order);
        }
        if !next_permutation(&mut order) {
            return None;
        }
    }
}

/// Grows stable orders from the highest rank down, one rank a round. A round keeps, for each
/// set of rows that has a stable order, the first of them by the rule, lowest rank first.
fn order_by_growing(table: &Table) -> Option<Vec<usize>> {
    let mut kept = BTreeMap::from([(0u32, Vec::new())]);
    for _ in &table.rows {
        let mut grown: BTreeMap<u32, Vec<usize>> = BTreeMap::new();
        for (&above, order) in &kept {
            let outside = (0..table.rows.len()).filter(|index| above >> index & 1 == 0);
            for index in outside.filter(|&index| is_stable(table, index, above)) {
                let longer = [&[index], order.as_slice()].concat();
                let first = grown.entry(above | 1 << index).or_insert_with(|| longer.clone());
                if longer < *first {
                    *first = longer;
                }
            }
        }
        kept = grown;
    }
    kept.into_values().next()
}

/// The order of the plan as rows of the table, highest rank first.
pub fn chosen_order(table: &Table) -> Option<Vec<usize>> {
    let few = table.rows.len() <= PERMUTED_AT_MOST;
    let method = if few { order_by_permutations } else { order_by_growing };
    let mut order = method(table)?;
    order.reverse();
    Some(order)
}

// ---- Writing ----------------------------------------------------------------------------

/// The figures of an order, highest rank first, or refusal 7 at its first late rank.
pub fn figures_of_order(table: &Table, order: &[usize]) -> Result<Vec<Figures>, Refusal> {
    let ranked: Vec<&Row> = order.iter().map(|&index| &table.rows[index]).collect();
    let mut all = Vec::new();
    for (rank, &row) in ranked.iter().enumerate() {
        let late = Refusal { number: 7, place: rank as u64 + 1 };
        let (above, below) = (&ranked[..rank], &ranked[rank + 1..]);
        all.push(figures(table.switch, row, above, below).ok_or(late)?);
    }
    Ok(all)
}

fn plan_text(table: &Table, order: &[usize]) -> Outcome {
    let figures = figures_of_order(table, order)?;
    let mut text = format!("plan=1\nboard={}\ntasks={}\n", table.board, table.rows.len());
    for (rank, (&index, Figures { best, worst, jitter, margin })) in
        order.iter().zip(figures).enumerate()
    {
        text += &format!("rank={}\ntask={}\n", rank + 1, table.rows[index].task);
        text += &format!("best={best}\nworst={worst}\njitter={jitter}\nmargin={margin}\n");
    }
    Ok(text.into_bytes())
}

pub fn planned(text: &[u8]) -> Outcome {
    let table = read_table(text)?;
    let order = chosen_order(&table).ok_or(Refusal { number: 8, place: 0 })?;
    plan_text(&table, &order)
}

pub fn reviewed(text: &[u8]) -> Outcome {
    let (table, order) = read_ranked(text)?;
    plan_text(&table, &order)
}

/// What a program prints for an outcome.
pub fn said(outcome: Outcome) -> Vec<u8> {
    outcome.unwrap_or_else(|Refusal { number, place }| {
        format!("plan=0\nrefusal={number}\nline={place}\n").into_bytes()
    })
}

// ---- The crane --------------------------------------------------------------------------

/// The pieces of a crane's text: its lines in groups, each line that begins with `board=` the
/// first of its group. An empty text has no line and is one empty piece.
pub fn pieces_of(text: &[u8]) -> Vec<Vec<u8>> {
    if text.is_empty() {
        return vec![Vec::new()];
    }
    let lines = lines_of(text);
    let groups = lines.chunk_by(|_, line| !line.starts_with(b"board="));
    groups.map(|lines| lines.concat()).collect()
}

/// What single calls on the pieces print, one after another. It is written or it does not fit:
/// the refusal of a piece is none of the whole call.
pub fn craned(text: &[u8]) -> Outcome {
    let pieces = pieces_of(text);
    refuse_if(pieces.len() > MOST_PIECES, 10, 0)?;
    Ok(pieces.iter().flat_map(|piece| said(planned(piece))).collect())
}

// ---- The buffer and the programs --------------------------------------------------------

/// What the call answers with this buffer, and what the buffer then holds.
pub fn written(outcome: &Outcome, buffer: &mut [u8]) -> Answer {
    let refused = |Refusal { number, place }| Answer { number, place, length: 0 };
    match outcome {
        Err(refusal) => refused(*refusal),
        Ok(text) if text.len() > buffer.len() => refused(Refusal { number: 9, place: 0 }),
        Ok(text) => {
            buffer[..text.len()].copy_from_slice(text);
            Answer { number: 0, place: 0, length: text.len() as u64 }
        }
    }
}

/// What a program prints for its input, of which it takes that many bytes at the most.
pub fn printed(call: fn(&[u8]) -> Outcome, takes: usize, input: &[u8]) -> Vec<u8> {
    said(call(&input[..input.len().min(takes)]))
}

#[cfg(test)]
mod tests {
    use super::*;
    use crate::dice::Dice;

    const TABLE: &str = "board=7\ntasks=3\nswitch=0\n\
        task=11\nperiod=24\ndeadline=24\nworst=6\nbest=6\n\
        alpha=1000\nbeta=8000\nhold=0\npoints=0\n\
        task=12\nperiod=18\ndeadline=18\nworst=2\nbest=2\n\
        alpha=1000\nbeta=8000\nhold=0\npoints=0\n\
        task=13\nperiod=200\ndeadline=200\nworst=19\nbest=17\n\
        alpha=3000\nbeta=57000\nhold=0\npoints=0\n";

    const PLAN: &str = "plan=1\nboard=7\ntasks=3\n\
        rank=1\ntask=12\nbest=2\nworst=2\njitter=0\nmargin=6000\n\
        rank=2\ntask=11\nbest=6\nworst=8\njitter=2\nmargin=0\n\
        rank=3\ntask=13\nbest=25\nworst=35\njitter=10\nmargin=2000\n";

    fn table() -> Table {
        read_table(TABLE.as_bytes()).unwrap()
    }

    /// E, W, jitter and margin of a row of the example below others of it, the rest below it.
    fn figured(index: usize, above: &[usize]) -> Option<(u64, u64, u64, i64)> {
        figured_with([0, 0, 0], index, above)
    }

    /// The same where the rows have these holds.
    fn figured_with(
        holds: [u64; 3],
        index: usize,
        above: &[usize],
    ) -> Option<(u64, u64, u64, i64)> {
        figured_switched(0, holds, index, above)
    }

    /// The same where jobs may last longer by the switch.
    fn figured_switched(
        switch: u64,
        holds: [u64; 3],
        index: usize,
        above: &[usize],
    ) -> Option<(u64, u64, u64, i64)> {
        let mut rows = table().rows;
        rows.iter_mut().zip(holds).for_each(|(row, hold)| row.hold = hold);
        let below = (0..3).filter(|other| *other != index && !above.contains(other));
        let below: Vec<&Row> = below.map(|index| &rows[index]).collect();
        let above: Vec<&Row> = above.iter().map(|&index| &rows[index]).collect();
        let figures = figures(switch, &rows[index], &above, &below);
        figures.map(|f| (f.best, f.worst, f.jitter, f.margin))
    }

    fn refused(number: u64, place: u64) -> Outcome {
        Err(Refusal { number, place })
    }

    /// The example with changes, each a text and what stands in its place, once.
    fn changed(changes: &[(&str, &str)]) -> String {
        changes.iter().fold(TABLE.to_string(), |text, (from, to)| {
            assert!(text.contains(from));
            text.replacen(from, to, 1)
        })
    }

    fn tasks_of(outcome: Outcome) -> Vec<String> {
        let text = String::from_utf8(outcome.unwrap()).unwrap();
        text.lines().filter_map(|line| line.strip_prefix("task=").map(str::to_string)).collect()
    }

    #[test]
    fn the_example_prints_whole() {
        assert_eq!(planned(TABLE.as_bytes()), Ok(PLAN.into()));
        assert_eq!(printed(planned, TABLE_TAKES, TABLE.as_bytes()), PLAN.as_bytes());
        let ranked = format!("{TABLE}rank=12\nrank=11\nrank=13\n");
        assert_eq!(reviewed(ranked.as_bytes()), Ok(PLAN.into()));
    }

    #[test]
    fn the_figures_of_the_example() {
        assert_eq!(figured(2, &[]), Some((17, 19, 2, 34000)));
        assert_eq!(figured(2, &[1]), Some((19, 23, 4, 26000)));
        assert_eq!(figured(2, &[0]), Some((17, 31, 14, -2000)));
        assert_eq!(figured(2, &[0, 1]), Some((25, 35, 10, 2000)));
        assert_eq!(figured(1, &[2]), None);
        assert_eq!(figured(1, &[0]), Some((2, 8, 6, 0)));
    }

    #[test]
    fn the_orders_of_the_example() {
        assert_eq!(chosen_order(&table()), Some(vec![1, 0, 2]));
        let text = changed(&[("57000", "55000")]);
        assert!(String::from_utf8(planned(text.as_bytes()).unwrap())
            .unwrap()
            .ends_with("margin=0\n"));
        let text = changed(&[("57000", "54999")]);
        assert_eq!(planned(text.as_bytes()), refused(8, 0));
        let text = changed(&[("beta=8000", "beta=7999")]);
        assert_eq!(tasks_of(planned(text.as_bytes())), ["11", "12", "13"]);
        let text = changed(&[("beta=8000", "beta=7999"), ("beta=8000", "beta=7999")]);
        assert_eq!(planned(text.as_bytes()), refused(8, 0));
    }

    #[test]
    fn one_task_at_its_line() {
        let one = |beta, hold| {
            let text = format!(
                "board=1\ntasks=1\nswitch=0\ntask=1\nperiod=10\ndeadline=10\nworst=10\n\
                best=10\nalpha=1000\nbeta={beta}\nhold={hold}\npoints=0\n"
            );
            planned(text.as_bytes())
        };
        // Its own hold is no part of its latest response.
        for hold in [0, 1, 2, 10] {
            assert!(one(10000, hold).is_ok());
            assert_eq!(one(9999, hold), refused(8, 0));
        }
        assert_eq!(one(10000, 11), refused(4, 11));
    }

    #[test]
    fn refusals_of_the_paper() {
        let ranked = format!("{TABLE}rank=11\nrank=13\nrank=12\n");
        assert_eq!(reviewed(ranked.as_bytes()), refused(7, 3));
        assert_eq!(planned(b""), refused(1, 1));
        assert_eq!(reviewed(b""), refused(1, 1));
        assert_eq!(planned(b"board=07\n"), refused(2, 1));
        assert_eq!(planned(b"board=7\ntasks=17\n"), refused(3, 2));
        assert!(read_table(changed(&[("worst=2", "worst=18")]).as_bytes()).is_ok());
        assert_eq!(planned(changed(&[("worst=2", "worst=19")]).as_bytes()), refused(4, 16));
        assert_eq!(printed(planned, TABLE_TAKES, b""), b"plan=0\nrefusal=1\nline=1\n");
    }

    #[test]
    fn each_number_at_its_place() {
        let refuses = |from, to, number, place| {
            assert_eq!(
                planned(changed(&[(from, to)]).as_bytes()),
                refused(number, place),
                "{from} {to}"
            );
        };
        refuses("board=7", "board7", 1, 1);
        refuses("board=7\n", "board=7", 2, 1);
        let last = "beta=57000\nhold=0\npoints=0\n";
        refuses("beta=57000\n", "beta=57000", 2, 28);
        refuses("beta=57000\nhold=0\n", "beta=57000\nhold=0", 2, 29);
        refuses(last, "beta=57000\nhold=0\npoints=0", 1, 30);
        refuses(last, "beta=57000\nhold=0\npoints=0\n\n", 1, 31);
        refuses(last, "beta=57000\nhold=0\npoints=0\nrank=11\n", 1, 31);
        refuses("board=7", "board=", 2, 1);
        refuses("board=7", "board=+7", 2, 1);
        refuses("board=7", "board=7\r", 2, 1);
        refuses("board=7", "board=999999999999", 3, 1);
        refuses("board=7", "board=1000000000000", 2, 1);
        refuses("board=7", "board=0", 3, 1);
        refuses("tasks=3", "tasks=0", 3, 2);
        refuses("best=6", "best=7", 4, 8);
        refuses("task=12", "task=11", 5, 13);
        refuses("alpha=1000", "alpha=999", 3, 9);
        refuses("beta=8000", "beta=200000000001", 3, 10);
        refuses("worst=6", "worst=1000001", 3, 7);
    }

    #[test]
    fn rank_lines_named_twice_or_unknown() {
        let review = |ranks: &str| reviewed(format!("{TABLE}{ranks}").as_bytes());
        assert_eq!(review("rank=11\nrank=11\nrank=13\n"), refused(6, 32));
        assert_eq!(review("rank=14\nrank=11\nrank=13\n"), refused(6, 31));
        assert_eq!(review("rank=65536\n"), refused(3, 31));
        assert_eq!(review("rank=11\nrank=12\n"), refused(1, 33));
        assert_eq!(review("rank=11\nrank=12\nrank=13\nrank=13\n"), refused(1, 34));
    }

    #[test]
    fn a_refusal_keeps_the_buffer_and_a_plan_only_its_length() {
        let outcome = planned(TABLE.as_bytes());
        let mut short = vec![200; PLAN.len() - 1];
        assert_eq!(written(&outcome, &mut short), Answer { number: 9, place: 0, length: 0 });
        assert!(short.iter().all(|&byte| byte == 200));
        let mut long = vec![200; PLAN.len() + 2];
        assert_eq!(
            written(&outcome, &mut long),
            Answer { number: 0, place: 0, length: PLAN.len() as u64 }
        );
        assert_eq!(long, [PLAN.as_bytes(), &[200, 200]].concat());
    }

    #[test]
    fn a_program_takes_no_more_than_its_bytes() {
        let mut input = TABLE.as_bytes().to_vec();
        input.resize(TABLE_TAKES, b'x');
        assert_eq!(printed(planned, TABLE_TAKES, &input), b"plan=0\nrefusal=1\nline=31\n");
        // A first line cut off by the limit has no line feed.
        let long = [&[b'x'; TABLE_TAKES], TABLE.as_bytes()].concat();
        assert_eq!(printed(planned, TABLE_TAKES, &long), b"plan=0\nrefusal=1\nline=1\n");
    }

    /// The definitions of W and E without a switch, tried number by number up to a million: each of the
    /// first w(q) from 1 on, and the others from the one before, below which there is less to do. What
    /// is past the deadline shows the row late, whatever comes after it.
    fn figures_by_trying(row: &Row, above: &[&Row], below: &[&Row]) -> Option<(u64, u64)> {
        let (mut worst, mut before) = (0, 0);
        for q in 0.. {
            let enough = (q * row.period + row.deadline).min(1_000_000);
            let from = if q < 8 { 1 } else { before };
            let w = (from..=enough).find(|&w| w == high(row, above, below, q, w))?;
            before = w;
            worst = worst.max(w - q * row.period);
            if w <= (q + 1) * row.period {
                break;
            }
        }
        Some((earliest_by_trying(row, above, worst)?, worst))
    }

    /// The right side of the equation of w(q), without a switch.
    fn high(row: &Row, above: &[&Row], below: &[&Row], q: u64, w: u64) -> u64 {
        let largest = below.iter().map(|r| r.hold).filter(|&hold| hold > 0).max();
        let blocking = largest.map_or(0, |hold| hold - 1);
        let over = above.iter().map(|r| w.div_ceil(r.period) * r.worst).sum::<u64>();
        (q + 1) * row.worst + over + blocking
    }

    fn earliest_by_trying(row: &Row, above: &[&Row], worst: u64) -> Option<u64> {
        let low = |e: u64| {
            row.best + above.iter().map(|r| (e.div_ceil(r.period) - 1) * r.best).sum::<u64>()
        };
        let solved = (1..=worst).rev().find(|&e| e == low(e))?;
        Some(if row.hold < 2 { solved } else { row.best })
    }

    /// W and E as they were before request 8: one equation, and late past the period.
    fn figures_before_deadlines(row: &Row, above: &[&Row], below: &[&Row]) -> Option<(u64, u64)> {
        let worst = (1..=row.period).find(|&w| w == high(row, above, below, 0, w))?;
        Some((earliest_by_trying(row, above, worst)?, worst))
    }

    /// No points half of the time, else some at delays around a worst time.
    fn small_curve(dice: &mut Dice, worst: u64, period: u64) -> Vec<Point> {
        let points = dice.pick(&[0, 0, 0, 0, 1, 2, 3, 8]);
        let (mut delay, mut allow) = (dice.between(0, worst), dice.between(period / 2, 2 * period));
        let mut curve = Vec::new();
        while curve.len() < points {
            curve.push(Point { delay, allow });
            delay += dice.between(1, 12);
            allow -= dice.between(0, allow.min(5));
        }
        curve
    }

    /// A table of few ticks, half of the time without a switch.
    fn small_table(dice: &mut Dice, count: usize) -> Table {
        let switch = dice.pick(&[0, 0, 0, 1, 2, 5]);
        let row = |index| {
            let period = dice.between(1 + switch, 60);
            let deadline = match dice.below(6) {
                0 | 1 => period,
                2 => dice.between(1, period),
                3 => dice.between(period, 4 * period),
                _ => dice.between(1, 120),
            };
            let worst = dice.between(1, (period - switch).min(8));
            let best = dice.between(1, worst);
            let alpha = dice.pick(&[1000, 1500, 4000]);
            let beta = dice.between(1000, 1000 * 2 * period);
            let hold = dice.pick(&[0, 0, 1, 2, worst]).min(worst);
            let curve = small_curve(dice, worst, period);
            let task = index as u64 + 1;
            Row { task, period, deadline, worst, best, alpha, beta, hold, curve }
        };
        Table { board: 1, switch, rows: (0..count).map(row).collect() }
    }

    /// The figures of the first row, so many of the next above it and the others below.
    fn figures_at(switch: u64, rows: &[Row], above: usize) -> Option<Figures> {
        let others: Vec<&Row> = rows[1..].iter().collect();
        let (above, below) = others.split_at(above);
        figures(switch, &rows[0], above, below)
    }

    /// The rows with the switch in their worst times: as a formula of before has them.
    fn lengthened(switch: u64, rows: &[Row]) -> Vec<Row> {
        rows.iter().map(|row| Row { worst: row.worst + switch, ..row.clone() }).collect()
    }

    /// How a row does that agrees with trying every number.
    #[derive(Clone, Copy, PartialEq)]
    enum Does {
        Late,
        Fits,
        Overruns,
    }

    /// How the first row does under some of the others; its figures are those of trying every number.
    /// With a switch of 0 the formulas are those of before it, and else those with longer jobs.
    fn agrees_with_trying(dice: &mut Dice, Table { switch, rows, .. }: &Table) -> Does {
        let split = dice.below(rows.len());
        let found = figures_at(*switch, rows, split).map(|f| (f.best, f.worst));
        let longer = lengthened(*switch, rows);
        let others: Vec<&Row> = longer[1..].iter().collect();
        let (above, below) = others.split_at(split);
        let tried = figures_by_trying(&longer[0], above, below);
        assert_eq!(found, tried, "switch {switch}, {rows:?}");
        match tried {
            None => Does::Late,
            Some((_, worst)) if worst <= rows[0].period => Does::Fits,
            _ => Does::Overruns,
        }
    }

    #[test]
    fn figures_agree_with_trying_every_number() {
        let (mut dice, mut overran) = (Dice::new(1), 0);
        for round in 0..40_000 {
            let table = small_table(&mut dice, 1 + round % 6);
            overran += (agrees_with_trying(&mut dice, &table) == Does::Overruns) as u32;
        }
        assert!(overran > 1_000, "{overran} of 40000 overrun");
    }

    /// The same of full tables, with periods long enough that many a task is in time.
    #[test]
    fn figures_agree_in_full_tables() {
        let mut dice = Dice::new(3);
        let (mut in_time, mut overran) = (0, 0);
        for _ in 0..4_000 {
            let mut table = small_table(&mut dice, MOST_TASKS);
            let times = dice.pick(&[6, 10, 20]);
            for row in &mut table.rows {
                row.period *= times;
                row.deadline *= times;
            }
            let does = agrees_with_trying(&mut dice, &table);
            in_time += (does != Does::Late) as u32;
            overran += (does == Does::Overruns) as u32;
        }
        assert!(in_time > 1_000, "{in_time} of 4000 are in time");
        assert!(overran > 100, "{overran} of 4000 overrun");
    }

    #[test]
    fn both_ways_to_an_order_agree() {
        let mut dice = Dice::new(2);
        let mut accepted = 0;
        for round in 0..4_000 {
            let table = small_table(&mut dice, 1 + round % PERMUTED_AT_MOST);
            let order = order_by_permutations(&table);
            assert_eq!(order, order_by_growing(&table), "{table:?}");
            accepted += order.is_some() as usize;
        }
        assert!(accepted > 500 && accepted < 3_500, "{accepted} of 4000 have an order");
    }

    // ---- Holds --------------------------------------------------------------------------

    /// The example with holds of its rows, in the table's sequence.
    fn held(holds: [u64; 3]) -> String {
        put_in("hold=0\n", holds.map(|hold| format!("hold={hold}\n")))
    }

    /// The example with something else for a line that each of its rows has.
    fn put_in(line: &str, others: [String; 3]) -> String {
        let mut parts = TABLE.split(line);
        let head = parts.next().unwrap().to_string();
        others.iter().zip(parts).fold(head, |text, (other, part)| text + other + part)
    }

    #[test]
    fn the_largest_hold_below_less_one_is_added_once() {
        // Task 12 with all others below it.
        assert_eq!(figured_with([0, 0, 1], 1, &[]), Some((2, 2, 0, 6000)));
        assert_eq!(figured_with([0, 0, 2], 1, &[]), Some((2, 3, 1, 5000)));
        assert_eq!(figured_with([3, 0, 5], 1, &[]), Some((2, 6, 4, 2000)));
        assert_eq!(figured_with([5, 0, 3], 1, &[]), Some((2, 6, 4, 2000)));
        assert_eq!(figured_with([0, 0, 17], 1, &[]), Some((2, 18, 16, -10000)));
        assert_eq!(figured_with([0, 0, 18], 1, &[]), None);
        // Task 11 below 12: the blocking time reaches past a release of 12, which counts once more.
        assert_eq!(figured_with([0, 0, 2], 0, &[1]), Some((6, 9, 3, -1000)));
        assert_eq!(figured_with([0, 0, 11], 0, &[1]), Some((6, 18, 12, -10000)));
        assert_eq!(figured_with([0, 0, 12], 0, &[1]), Some((6, 21, 15, -13000)));
        assert_eq!(figured_with([0, 0, 15], 0, &[1]), Some((6, 24, 18, -16000)));
        assert_eq!(figured_with([0, 0, 16], 0, &[1]), None);
        assert_eq!(figured_with([6, 0, 0], 2, &[1]), Some((19, 28, 9, 11000)));
    }

    #[test]
    fn holds_above_and_its_own_do_not_block() {
        assert_eq!(figured_with([6, 2, 0], 2, &[0, 1]), Some((25, 35, 10, 2000)));
        assert_eq!(figured_with([6, 2, 0], 0, &[1]), Some((6, 8, 2, 0)));
        assert_eq!(figured_with([6, 2, 0], 1, &[0]), Some((2, 8, 6, 0)));
        assert_eq!(figured_with([6, 2, 0], 1, &[]), Some((2, 7, 5, 1000)));
        assert_eq!(figured_with([6, 2, 0], 0, &[]), Some((6, 7, 1, 1000)));
    }

    #[test]
    fn a_hold_of_two_makes_the_best_time_the_earliest_response() {
        assert_eq!(figured_with([0, 0, 0], 2, &[0, 1]), Some((25, 35, 10, 2000)));
        assert_eq!(figured_with([0, 0, 1], 2, &[0, 1]), Some((25, 35, 10, 2000)));
        assert_eq!(figured_with([0, 0, 2], 2, &[0, 1]), Some((17, 35, 18, -14000)));
        assert_eq!(figured_with([0, 0, 19], 2, &[0, 1]), Some((17, 35, 18, -14000)));
        assert_eq!(figured_with([2, 2, 1], 2, &[1]), Some((19, 24, 5, 23000)));
        assert_eq!(figured_with([2, 2, 2], 2, &[1]), Some((17, 24, 7, 19000)));
    }

    #[test]
    fn plans_of_the_example_with_holds() {
        assert_eq!(held([0, 0, 0]), TABLE);
        let plan = |holds| planned(held(holds).as_bytes());
        assert_eq!(plan([1, 1, 1]), Ok(PLAN.into()));
        assert_eq!(plan([0, 2, 1]), Ok(PLAN.into()));
        let (soon, waits) = ("worst=2\njitter=0\nmargin=6000", "worst=7\njitter=5\nmargin=1000");
        assert_eq!(plan([6, 2, 1]), Ok(PLAN.replace(soon, waits).into()));
        assert_eq!(plan([0, 0, 2]), refused(8, 0));
        // Task 12 above 11, which holds six ticks, just reaches a beta of 7000.
        let beta = |beta| held([6, 2, 0]).replace("beta=8000\nhold=2", &format!("{beta}\nhold=2"));
        assert_eq!(tasks_of(planned(beta("beta=7000").as_bytes())), ["12", "11", "13"]);
        assert_eq!(planned(beta("beta=6999").as_bytes()), refused(8, 0));
        // What 11 loses by going below 12 it does not lose by a hold of 12 below it.
        let tight = held([0, 2, 0]).replacen("beta=8000", "beta=7999", 1);
        assert_eq!(tasks_of(planned(tight.as_bytes())), ["11", "12", "13"]);
    }

    #[test]
    fn the_reviewer_counts_the_ranks_below() {
        let review = |holds, ranks: &str| reviewed((held(holds) + ranks).as_bytes());
        let figures = "plan=1\nboard=7\ntasks=3\n\
            rank=1\ntask=12\nbest=2\nworst=3\njitter=1\nmargin=5000\n\
            rank=2\ntask=11\nbest=6\nworst=9\njitter=3\nmargin=-1000\n\
            rank=3\ntask=13\nbest=17\nworst=35\njitter=18\nmargin=-14000\n";
        let ranks = "rank=12\nrank=11\nrank=13\n";
        assert_eq!(review([0, 0, 2], ranks), Ok(figures.into()));
        assert!(review([0, 0, 15], ranks).is_ok());
        assert_eq!(review([0, 0, 16], ranks), refused(7, 2));
        assert_eq!(review([0, 0, 18], ranks), refused(7, 1));
        assert_eq!(review([0, 0, 18], "rank=13\nrank=12\nrank=11\n"), refused(7, 2));
    }

    #[test]
    fn the_line_of_the_hold() {
        let refuses = |from: &str, to: &str, number, place| {
            let text = changed(&[(from, to)]);
            assert_eq!(planned(text.as_bytes()), refused(number, place), "{from} {to}");
        };
        let last = "beta=57000\nhold=0\n";
        assert!(read_table(held([6, 2, 19]).as_bytes()).is_ok());
        refuses("hold=0", "hold=7", 4, 11);
        refuses(last, "beta=57000\nhold=20\n", 4, 29);
        refuses("hold=0", "hold=1000000", 4, 11);
        refuses("hold=0", "hold=1000001", 3, 11);
        refuses("hold=0", "hold=999999999999", 3, 11);
        refuses("hold=0", "hold=1000000000000", 2, 11);
        for number in ["", "00", "06", "-1", "-0", "+6", "6 ", "6\r", "x", "=6"] {
            refuses("hold=0", &format!("hold={number}"), 2, 11);
        }
        for line in ["Hold=0", "hold", "hold0", "holds=0", "hold =0", " hold=0", "", "beta=0"] {
            refuses("hold=0", line, 1, 11);
        }
        refuses("hold=0\n", "", 1, 11);
        refuses(last, "beta=57000\n", 1, 29);
        refuses("hold=0\n", "hold=0\nhold=0\n", 1, 12);
        refuses(last, "beta=57000\nhold=0\nhold=0\n", 1, 30);
        refuses("beta=8000\nhold=0\n", "hold=0\nbeta=8000\n", 1, 10);
        let old = TABLE.replace("hold=0\n", "");
        assert_eq!(planned(old.as_bytes()), refused(1, 11));
        let largest = "board=1\ntasks=1\nswitch=0\ntask=1\nperiod=1000000\ndeadline=1000000\n\
            worst=1000000\nbest=1\nalpha=1000\nbeta=0\nhold=";
        assert!(read_table(format!("{largest}1000000\npoints=0\n").as_bytes()).is_ok());
        assert_eq!(planned(format!("{largest}1000001\npoints=0\n").as_bytes()), refused(3, 11));
    }

    // ---- The switch ---------------------------------------------------------------------

    /// The example with a switch.
    fn switched(switch: u64) -> String {
        changed(&[("switch=0", &format!("switch={switch}"))])
    }

    /// The example with a switch of 1: jobs last up to 7, 3 and 20 ticks.
    ///
    /// Task 13 alone: W = 20. Below 12: 20 + 2 × 3 = 26, in which 12 is released twice. Below 11:
    /// 20 + 2 × 7 = 34. Below both: 20 + 2 × 7 + 3 × 3 = 43; with two jobs of 12 it would be 40,
    /// which is past its third release at 36. Each E is that without a switch.
    #[test]
    fn the_figures_of_the_example_with_a_switch() {
        let figured = |index, above: &[usize]| figured_switched(1, [0, 0, 0], index, above);
        assert_eq!(figured(2, &[]), Some((17, 20, 3, 31000)));
        assert_eq!(figured(2, &[1]), Some((19, 26, 7, 17000)));
        assert_eq!(figured(2, &[0]), Some((17, 34, 17, -11000)));
        assert_eq!(figured(2, &[0, 1]), Some((25, 43, 18, -22000)));
        assert_eq!(figured(1, &[2]), None);
        assert_eq!(figured(1, &[0]), Some((2, 10, 8, -2000)));
        assert_eq!(figured(0, &[1]), Some((6, 10, 4, -2000)));
        assert_eq!(figured(0, &[]), Some((6, 7, 1, 1000)));
    }

    #[test]
    fn the_own_switch_is_counted_once_and_one_for_each_job_above() {
        let alone = |switch| figured_switched(switch, [0, 0, 0], 1, &[]);
        assert_eq!(alone(2), Some((2, 4, 2, 4000)));
        assert_eq!(alone(16), Some((2, 18, 16, -10000)));
        assert_eq!(alone(17), None);
        // Task 12 below 11: 2 + 6 and two switches, up to its period of 18.
        let below = |switch| figured_switched(switch, [0, 0, 0], 1, &[0]);
        assert_eq!(below(5), Some((2, 18, 16, -10000)));
        assert_eq!(below(6), None);
        // Task 11 below 12: the same 18, past which 12 is released once more, with its switch.
        let below = |switch| figured_switched(switch, [0, 0, 0], 0, &[1]);
        assert_eq!(below(5), Some((6, 18, 12, -10000)));
        assert_eq!(below(6), None);
    }

    #[test]
    fn the_blocking_time_has_no_switch() {
        // Task 12 on top: 2 and the switch, and the largest hold below less 1.
        assert_eq!(figured_switched(1, [3, 0, 5], 1, &[]), Some((2, 7, 5, 1000)));
        assert_eq!(figured_switched(3, [0, 0, 2], 1, &[]), Some((2, 6, 4, 2000)));
        // A hold of 0 or 1 blocks no tick, whatever the switch.
        assert_eq!(figured_switched(3, [0, 0, 1], 1, &[]), Some((2, 5, 3, 3000)));
        assert_eq!(figured_switched(3, [0, 0, 0], 1, &[]), Some((2, 5, 3, 3000)));
        // With its own hold of 2 a task has its row's best as E, without the switch.
        assert_eq!(figured_switched(1, [0, 0, 2], 2, &[0, 1]), Some((17, 43, 26, -38000)));
    }

    /// As a switch grows no W falls and none that was late comes in time again, and E stays: past
    /// the smaller W there is no solution, since the load above is below 1.
    #[test]
    fn responses_as_the_switch_grows() {
        let mut dice = Dice::new(3);
        let mut grown = 0;
        for round in 0..20_000 {
            let Table { rows, .. } = small_table(&mut dice, 1 + round % 6);
            let split = dice.below(rows.len());
            let mut before = figures_at(0, &rows, split);
            for switch in 1..10 {
                let after = figures_at(switch, &rows, split);
                if let Some(after) = after {
                    let before = before.expect("late with a smaller switch");
                    assert!(before.worst < after.worst, "switch {switch}, {rows:?}");
                    assert_eq!(before.best, after.best, "switch {switch}, {rows:?}");
                    grown += 1;
                }
                before = after;
            }
        }
        assert!(grown > 20_000, "{grown} tasks in time with a switch");
    }

    /// An order for a table with a switch is that for one whose jobs are longer.
    #[test]
    fn orders_are_those_of_longer_jobs() {
        let mut dice = Dice::new(4);
        let mut accepted = 0;
        for round in 0..4_000 {
            let table = small_table(&mut dice, 1 + round % PERMUTED_AT_MOST);
            let rows = lengthened(table.switch, &table.rows);
            let order = chosen_order(&table);
            assert_eq!(order, chosen_order(&Table { switch: 0, rows, ..table.clone() }));
            accepted += (table.switch > 0 && order.is_some()) as usize;
        }
        assert!(accepted > 200, "{accepted} with a switch and an order");
    }

    /// The example with betas of 9999, 10000 and `last`.
    fn tight(switch: u64, last: u64) -> String {
        let (switch, last) = (format!("switch={switch}"), format!("beta={last}"));
        let first = [("beta=8000", "beta=9999"), ("beta=8000", "beta=10000")];
        changed(&[first[0], first[1], ("beta=57000", &last), ("switch=0", &switch)])
    }

    /// Task 11 below 12 costs 8000, with a switch of 1 it costs 10000, and so does 12 below 11;
    /// with a switch of 2 each costs 12000.
    #[test]
    fn a_switch_changes_the_order_and_a_larger_one_leaves_none() {
        let order = |switch| tasks_of(planned(tight(switch, 200_000).as_bytes()));
        assert_eq!(order(0), ["12", "11", "13"]);
        assert_eq!(order(1), ["11", "12", "13"]);
        assert_eq!(planned(tight(2, 200_000).as_bytes()), refused(8, 0));
        let plan = "plan=1\nboard=7\ntasks=3\n\
            rank=1\ntask=11\nbest=6\nworst=7\njitter=1\nmargin=2999\n\
            rank=2\ntask=12\nbest=2\nworst=10\njitter=8\nmargin=0\n\
            rank=3\ntask=13\nbest=25\nworst=43\njitter=18\nmargin=0\n";
        assert_eq!(planned(tight(1, 79_000).as_bytes()), Ok(plan.into()));
        assert_eq!(planned(tight(1, 78_999).as_bytes()), refused(8, 0));
        assert_eq!(planned(switched(1).as_bytes()), refused(8, 0));
    }

    #[test]
    fn the_reviewer_counts_the_switch() {
        let review = |switch, ranks: &str| reviewed((switched(switch) + ranks).as_bytes());
        let figures = "plan=1\nboard=7\ntasks=3\n\
            rank=1\ntask=12\nbest=2\nworst=3\njitter=1\nmargin=5000\n\
            rank=2\ntask=11\nbest=6\nworst=10\njitter=4\nmargin=-2000\n\
            rank=3\ntask=13\nbest=25\nworst=43\njitter=18\nmargin=-22000\n";
        assert_eq!(review(1, "rank=12\nrank=11\nrank=13\n"), Ok(figures.into()));
        // Either below the other takes 8 ticks and two switches, and 12 is released again at 18.
        assert!(review(5, "rank=11\nrank=12\nrank=13\n").is_ok());
        assert_eq!(review(6, "rank=11\nrank=12\nrank=13\n"), refused(7, 2));
        assert_eq!(review(6, "rank=12\nrank=11\nrank=13\n"), refused(7, 2));
        assert_eq!(review(17, "rank=12\nrank=11\nrank=13\n"), refused(4, 16));
    }

    /// One task whose job lasts up to the worst time and the switch.
    fn one(switch: &str, period: u64, worst: u64, best: u64, hold: u64) -> Result<Table, Refusal> {
        let head = format!("board=1\ntasks=1\nswitch={switch}\ntask=1\nperiod={period}\n");
        let times = format!("deadline=1\nworst={worst}\nbest={best}\n");
        let rest = format!("alpha=1000\nbeta=0\nhold={hold}\npoints=0\n");
        read_table((head + &times + &rest).as_bytes())
    }

    fn unread(number: u64, place: u64) -> Result<Table, Refusal> {
        Err(Refusal { number, place })
    }

    #[test]
    fn worst_and_switch_are_held_against_the_period() {
        assert!(one("1000", 1_001, 1, 1, 0).is_ok());
        assert_eq!(one("1000", 1_000, 1, 1, 0), unread(4, 7));
        assert!(one("3", 10, 7, 1, 0).is_ok());
        assert_eq!(one("3", 10, 8, 1, 0), unread(4, 7));
        assert!(one("0", 1_000_000, 1_000_000, 1, 0).is_ok());
        assert!(one("1000", 1_000_000, 999_000, 1, 0).is_ok());
        assert_eq!(one("1000", 1_000_000, 999_001, 1, 0), unread(4, 7));
        assert_eq!(one("1", 1_000_000, 1_000_000, 1, 0), unread(4, 7));
        assert_eq!(one("1", 1_000_000, 1_000_001, 1, 0), unread(3, 7));
        // Of the example, task 12 is at its period with a switch of 16, and 11 with 18.
        assert!(read_table(switched(16).as_bytes()).is_ok());
        assert_eq!(planned(switched(17).as_bytes()), refused(4, 16));
        assert_eq!(planned(switched(19).as_bytes()), refused(4, 7));
    }

    #[test]
    fn best_and_hold_are_held_against_the_worst_time_alone() {
        assert!(one("3", 20, 8, 8, 8).is_ok());
        for above in [9, 10, 11, 12] {
            assert_eq!(one("3", 20, 8, above, 0), unread(4, 8));
            assert_eq!(one("3", 20, 8, 8, above), unread(4, 11));
        }
    }

    #[test]
    fn the_numbers_of_the_switch() {
        for switch in ["0", "1", "999", "1000"] {
            let read = one(switch, 2_000, 8, 8, 0).map(|table| table.switch);
            assert_eq!(read.map(|number| number.to_string()), Ok(switch.to_string()));
        }
        for switch in ["1001", "1010", "65536", "4294967296", "999999999999"] {
            assert_eq!(one(switch, 2_000, 8, 8, 0), unread(3, 3));
        }
        for switch in
            ["", "00", "01", "01000", "-1", "-0", "+1", " 1", "1 ", "1\r", "1.0", "x", "=1"]
        {
            assert_eq!(one(switch, 2_000, 8, 8, 0), unread(2, 3));
        }
        for switch in ["1000000000000", "0000000000001", "18446744073709551616"] {
            assert_eq!(one(switch, 2_000, 8, 8, 0), unread(2, 3));
        }
        // Said before anything of the rows, and after the lines ahead of it.
        assert_eq!(planned(b"board=7\ntasks=3\nswitch=1001\n"), refused(3, 3));
        assert_eq!(planned(b"board=7\ntasks=17\nswitch=1001\n"), refused(3, 2));
    }

    #[test]
    fn the_place_of_the_switch() {
        let refuses = |from: &str, to: &str, number, place| {
            let text = changed(&[(from, to)]);
            assert_eq!(planned(text.as_bytes()), refused(number, place), "{from} {to}");
            assert_eq!(reviewed(text.as_bytes()), refused(number, place), "{from} {to}");
            assert_eq!(crane_says(&text), refusal_says(number, place), "{from} {to}");
        };
        let head = "board=7\ntasks=3\nswitch=0\n";
        refuses("switch=0\n", "", 1, 3);
        refuses("switch=0\n", "switch=0\nswitch=0\n", 1, 4);
        refuses(head, "board=7\nswitch=0\ntasks=3\n", 1, 2);
        refuses("switch=0\ntask=11\n", "task=11\nswitch=0\n", 1, 3);
        refuses("task=11\n", "task=11\nswitch=0\n", 1, 5);
        refuses("hold=0\n", "hold=0\nswitch=0\n", 1, 12);
        refuses("points=0\n", "points=0\nswitch=0\n", 1, 13);
        refuses("hold=0\n", "switch=0\n", 1, 11);
        refuses("points=0\ntask=12", "switch=0\ntask=12", 1, 12);
        let ahead = changed(&[(head, "switch=0\nboard=7\ntasks=3\n")]);
        assert_eq!(planned(ahead.as_bytes()), refused(1, 1));
        // Ahead of the first board of a crane it is a piece of its own, and the next lacks it.
        assert_eq!(crane_says(&ahead), refusal_says(1, 1) + &refusal_says(1, 3));
        for line in
            ["Switch=0", "switch", "switch0", "switches=0", "switch =0", " switch=0", "", "tasks=0"]
        {
            refuses("switch=0", line, 1, 3);
        }
        // At the end, in place of the third line and beside it, and after the ranks.
        let moved = TABLE.replace("switch=0\n", "") + "switch=0\n";
        assert_eq!(planned(moved.as_bytes()), refused(1, 3));
        assert_eq!(planned(format!("{TABLE}switch=0\n").as_bytes()), refused(1, 31));
        assert_eq!(reviewed(format!("{TABLE}switch=0\n").as_bytes()), refused(1, 31));
        let ranked = format!("{TABLE}rank=12\nrank=11\nrank=13\nswitch=0\n");
        assert_eq!(reviewed(ranked.as_bytes()), refused(1, 34));
        assert_eq!(planned(b"board=7\ntasks=3\n"), refused(1, 3));
        assert_eq!(planned(b"board=7\ntasks=3\nswitch=0"), refused(1, 3));
        assert_eq!(planned(b"board=7\ntasks=3\nswitch=0\n"), refused(1, 4));
    }

    #[test]
    fn each_board_of_a_crane_has_its_own_switch() {
        let plan = |switch| {
            let text = planned(tight(switch, 200_000).as_bytes()).unwrap();
            String::from_utf8(text).unwrap()
        };
        let boards = [tight(0, 200_000), tight(1, 200_000), tight(2, 200_000), switched(1_001)];
        let (none, range) = (refusal_says(8, 0), refusal_says(3, 3));
        let answers = [plan(0), plan(1), none, range];
        assert_eq!(crane_says(&boards.concat()), answers.concat());
        for (one, other) in [(0, 1), (1, 0), (2, 0), (3, 1), (1, 2)] {
            let text = boards[one].clone() + &boards[other];
            assert_eq!(crane_says(&text), answers[one].clone() + &answers[other]);
        }
    }

    // ---- Deadlines ----------------------------------------------------------------------

    const FAR: u64 = 1_000_000;

    /// A row that no line troubles.
    fn timed(period: u64, deadline: u64, worst: u64, best: u64) -> Row {
        let (alpha, beta) = (1_000, 200_000_000_000);
        Row { task: 1, period, deadline, worst, best, alpha, beta, hold: 0, curve: Vec::new() }
    }

    /// A row that holds for so long.
    fn holder(hold: u64) -> Row {
        Row { hold, ..timed(FAR, FAR, hold, 1) }
    }

    /// When the jobs of a busy interval of a row are done, and its E and W.
    fn busy(
        switch: u64,
        row: &Row,
        above: &[&Row],
        below: &[&Row],
    ) -> Option<(Vec<u64>, u64, u64)> {
        let figures = figures(switch, row, above, below)?;
        Some((finishes(switch, row, above, below)?, figures.best, figures.worst))
    }

    /// The same by the deadline of the row.
    fn due(deadline: u64, row: &Row, above: &[&Row]) -> Option<(Vec<u64>, u64, u64)> {
        busy(0, &Row { deadline, ..row.clone() }, above, &[])
    }

    /// 26 ticks every 70 and 62 every 100, a well-known pair. The second below the first:
    ///
    /// w(0) = 62 + 2 × 26 = 114, w(1) = 124 + 3 × 26 = 202, w(2) = 186 + 5 × 26 = 316,
    /// w(3) = 248 + 6 × 26 = 404, w(4) = 310 + 8 × 26 = 518, w(5) = 372 + 9 × 26 = 606,
    /// w(6) = 434 + 10 × 26 = 694, at last before a release, that at 700. The responses are 114,
    /// 102, 116, 104, 118, 106 and 94.
    #[test]
    fn the_latest_response_may_be_that_of_a_later_job() {
        let (short, long) = (timed(70, FAR, 26, 26), timed(100, FAR, 62, 62));
        let ends = vec![114, 202, 316, 404, 518, 606, 694];
        // E is 62 + 26: at 88 one period above has passed, and at 118 not two.
        for deadline in [118, 119, 700, 999_999, FAR] {
            assert_eq!(due(deadline, &long, &[&short]), Some((ends.clone(), 88, 118)));
        }
        for deadline in [1, 61, 62, 100, 114, 116, 117] {
            assert_eq!(due(deadline, &long, &[&short]), None, "{deadline}");
        }
        // A tick less, and the second job is done with its period: w(1) = 122 + 3 × 26 = 200.
        let less = timed(100, FAR, 61, 61);
        assert_eq!(due(113, &less, &[&short]), Some((vec![113, 200], 87, 113)));
        assert_eq!(due(112, &less, &[&short]), None);
        // The first below the second, with ten jobs. 26 (q + 1) + 62, 124, 186, ... and the responses
        // are 88, 106, 124, 80, 98, 116, 72, 90, 108, 64.
        let ends = vec![88, 176, 264, 290, 378, 466, 492, 580, 668, 694];
        assert_eq!(due(124, &short, &[&long]), Some((ends, 26, 124)));
        assert_eq!(due(123, &short, &[&long]), None);
        assert_eq!(due(26, &short, &[]), Some((vec![26], 26, 26)));
    }

    /// The same with a stretch below of some ticks less 1: they come once, and not in each job.
    #[test]
    fn the_blocking_time_is_counted_once_in_a_busy_interval() {
        let (short, long) = (timed(70, FAR, 26, 26), timed(100, FAR, 62, 62));
        let held = |hold| busy(0, &long, &[&short], &[&holder(hold)]);
        assert_eq!(held(1), busy(0, &long, &[&short], &[]));
        assert_eq!(held(3), Some((vec![116, 204, 318, 406, 520, 608, 696], 88, 120)));
        // The last job is just done by the next release.
        assert_eq!(held(7), Some((vec![120, 208, 322, 410, 524, 612, 700], 88, 124)));
        assert_eq!(
            held(8).map(|(ends, ..)| ends[..8].to_vec()),
            Some(vec![121, 209, 323, 411, 525, 613, 727, 815])
        );
        // Its own hold is no part of W, and from 2 on its best is E.
        let holds = |hold| busy(0, &Row { hold, ..long.clone() }, &[&short], &[]);
        assert_eq!(holds(1), busy(0, &long, &[&short], &[]));
        assert_eq!(holds(2).map(|(_, best, worst)| (best, worst)), Some((62, 118)));
    }

    /// Axis loops of 8 ticks every 40 and 14 every 70 above a heater of 58 every 100, a switch of 1
    /// in each: w(0) = 58 + 3 × 8 + 2 × 14 = 110 and w(1) = 116 + 5 × 8 + 3 × 14 = 198.
    #[test]
    fn each_job_of_a_busy_interval_pays_the_switch() {
        let heater = timed(100, 110, 57, 50);
        let axes = [timed(40, 40, 7, 7), timed(70, 70, 13, 13)];
        let above: Vec<&Row> = axes.iter().collect();
        // E is 50 + 7: at 57 one period of 40 has passed.
        assert_eq!(busy(1, &heater, &above, &[]), Some((vec![110, 198], 57, 110)));
        assert_eq!(busy(1, &Row { deadline: 109, ..heater.clone() }, &above, &[]), None);
        // Without it 57 + 3 × 7 + 2 × 13 = 104 and 114 + 5 × 7 + 3 × 13 = 188. With 2 they need more
        // than there is: 9 in 40, 15 in 70 and 59 in 100.
        assert_eq!(busy(0, &heater, &above, &[]), Some((vec![104, 188], 57, 104)));
        assert_eq!(busy(2, &Row { deadline: FAR, ..heater }, &above, &[]), None);
    }

    /// Jobs of 500 every 1,000 below one of 500,000: job q is done at 500,000 + 500 (q + 1), the
    /// thousandth with the millionth tick, just when the next is released.
    #[test]
    fn a_job_is_done_within_a_million_ticks_or_the_task_is_late() {
        let row = timed(1_000, FAR, 500, 500);
        let found = |above: u64, hold| {
            let found = busy(0, &row, &[&timed(FAR, FAR, above, 1)], &[&holder(hold)]);
            found.map(|(ends, best, worst)| (ends.len(), ends[ends.len() - 1], best, worst))
        };
        assert_eq!(found(499_999, 1), Some((1_000, 999_999, 500, 500_499)));
        assert_eq!(found(500_000, 1), Some((1_000, 1_000_000, 500, 500_500)));
        assert_eq!(found(499_999, 2), Some((1_000, 1_000_000, 500, 500_500)));
        // One tick more: no response is past 500,501, and the thousandth job is not found.
        assert_eq!(found(500_001, 1), None);
        assert_eq!(found(500_000, 2), None);
        assert_eq!(
            due(500_500, &row, &[&timed(FAR, 1, 500_000, 1)]).map(|found| found.2),
            Some(500_500)
        );
        assert_eq!(due(500_499, &row, &[&timed(FAR, 1, 500_000, 1)]), None);
        // The first job is done with the millionth tick.
        let (last, long) = (timed(FAR, FAR, 1, 1), timed(FAR, FAR, 999_999, 999_999));
        assert_eq!(busy(0, &last, &[&long], &[]), Some((vec![FAR], 1, FAR)));
        assert_eq!(busy(0, &last, &[&long], &[&holder(2)]), None);
        assert_eq!(due(999_999, &last, &[&long]), None);
    }

    /// One tick of two and two of four. With a tick of blocking time w(q) = 4 q + 6, which is never
    /// by the next release, so that no response is past 6 and the task is late all the same.
    #[test]
    fn a_busy_interval_may_have_no_end() {
        let (row, above) = (timed(4, FAR, 2, 1), timed(2, 2, 1, 1));
        assert_eq!(busy(0, &row, &[&above], &[]), Some((vec![4], 1, 4)));
        assert_eq!(busy(0, &row, &[&above], &[&holder(2)]), None);
        // With less to do there is an end to it; with more there is none without blocking either.
        let less = timed(4, FAR, 1, 1);
        assert_eq!(busy(0, &less, &[&above], &[&holder(2)]), Some((vec![4], 1, 4)));
        assert_eq!(busy(0, &timed(4, FAR, 3, 1), &[&above], &[]), None);
        assert_eq!(busy(0, &row, &[&timed(2, 2, 2, 1)], &[]), None);
    }

    #[test]
    fn a_deadline_is_free_of_the_other_times() {
        for deadline in [1, 9] {
            assert_eq!(due(deadline, &timed(20, FAR, 10, 10), &[]), None);
        }
        for deadline in [10, 11, 19, 20, 21, FAR] {
            assert_eq!(due(deadline, &timed(20, FAR, 10, 10), &[]), Some((vec![10], 10, 10)));
        }
        assert_eq!(due(1, &timed(1, FAR, 1, 1), &[]), Some((vec![1], 1, 1)));
        assert_eq!(due(FAR, &timed(FAR, FAR, FAR, FAR), &[]), Some((vec![FAR], FAR, FAR)));
        assert_eq!(due(FAR - 1, &timed(FAR, FAR, FAR, FAR), &[]), None);
        // The switch is a part of it.
        let switched = |deadline| busy(3, &timed(20, deadline, 10, 10), &[], &[]);
        assert_eq!((switched(12), switched(13)), (None, Some((vec![13], 10, 13))));
        // A deadline above is of no account.
        for deadline in [1, 2, FAR] {
            let above = timed(18, deadline, 2, 2);
            assert_eq!(due(FAR, &timed(200, FAR, 19, 17), &[&above]), Some((vec![23], 19, 23)));
        }
    }

    /// The example with deadlines of its rows, in the table's sequence.
    fn with_deadlines(deadlines: [u64; 3]) -> String {
        let [first, second, third] = deadlines.map(|deadline| format!("deadline={deadline}\n"));
        changed(&[
            ("deadline=24\n", &first),
            ("deadline=18\n", &second),
            ("deadline=200\n", &third),
        ])
    }

    #[test]
    fn plans_of_the_example_with_deadlines() {
        let plan = |deadlines| planned(with_deadlines(deadlines).as_bytes());
        assert_eq!(with_deadlines([24, 18, 200]), TABLE);
        // In the plan's order W is 8, 2 and 35.
        for deadlines in [[8, 2, 35], [24, 2, 36], [9, 18, 35], [8, 18, FAR], [25, 3, 200]] {
            assert_eq!(plan(deadlines), Ok(PLAN.into()), "{deadlines:?}");
        }
        assert_eq!(plan([24, 18, 34]), refused(8, 0));
        assert_eq!(plan([24, 1, 200]), refused(8, 0));
        assert_eq!(plan([5, 18, 200]), refused(8, 0));
        // On top 11 has W 6, and 12 below it 8.
        assert_eq!(tasks_of(plan([7, 18, 200])), ["11", "12", "13"]);
        assert_eq!(tasks_of(plan([6, 8, 200])), ["11", "12", "13"]);
        assert_eq!(plan([6, 7, 200]), refused(8, 0));
        let review = |deadlines| {
            reviewed((with_deadlines(deadlines) + "rank=12\nrank=11\nrank=13\n").as_bytes())
        };
        assert_eq!(review([8, 2, 35]), Ok(PLAN.into()));
        assert_eq!(review([8, 2, 34]), refused(7, 3));
        assert_eq!(review([7, 2, 34]), refused(7, 2));
        assert_eq!(review([7, 1, 34]), refused(7, 1));
    }

    /// Task 12 below both others: w(0) = 2 + 2 × 6 + 19 = 33 and w(1) = 4 + 2 × 6 + 19 = 35, which is
    /// by the release at 36.
    #[test]
    fn the_order_of_the_paper_with_a_patient_task() {
        let review = |deadline| {
            let text = with_deadlines([24, deadline, 200]) + "rank=11\nrank=13\nrank=12\n";
            reviewed(text.as_bytes())
        };
        let figures = "plan=1\nboard=7\ntasks=3\n\
            rank=1\ntask=11\nbest=6\nworst=6\njitter=0\nmargin=2000\n\
            rank=2\ntask=13\nbest=17\nworst=31\njitter=14\nmargin=-2000\n\
            rank=3\ntask=12\nbest=2\nworst=33\njitter=31\nmargin=-25000\n";
        assert_eq!(review(33), Ok(figures.into()));
        assert_eq!(review(FAR), Ok(figures.into()));
        assert_eq!(review(32), refused(7, 3));
        assert_eq!(review(1), refused(7, 3));
    }

    /// With a beta that bears it task 12 may be the lowest: 11 before it in the table may not. But
    /// then 13 is above it, below 11, where its margin is −2,000; and 11 below 13 is late. So the
    /// choice has to be taken back, and 13 is the lowest.
    #[test]
    fn a_task_that_overruns_may_have_to_be_taken_back() {
        let text = with_deadlines([24, 33, 200])
            .replace("2\nalpha=1000\nbeta=8000", "2\nalpha=1000\nbeta=33000");
        let table = read_table(text.as_bytes()).unwrap();
        assert_eq!(
            [0, 1, 2].map(|index| is_stable(&table, index, 7 & !(1 << index))),
            [false, true, true]
        );
        assert_eq!(
            planned(text.as_bytes()),
            Ok(PLAN.replace("margin=6000", "margin=31000").into())
        );
        // Where 13 bears that margin, 12 is the lowest.
        let order = tasks_of(planned(text.replace("57000", "59000").as_bytes()));
        assert_eq!(order, ["11", "13", "12"]);
        let shorter = text.replace("57000", "59000").replace("deadline=33", "deadline=32");
        assert_eq!(tasks_of(planned(shorter.as_bytes())), ["12", "11", "13"]);
    }

    /// With deadlines of the periods all is as it was: the old equation, and late past the period.
    #[test]
    fn deadlines_of_the_periods_give_the_old_figures() {
        let (mut dice, mut in_time) = (Dice::new(9), 0);
        for round in 0..10_000 {
            let Table { switch, mut rows, .. } = small_table(&mut dice, 1 + round % 6);
            rows.iter_mut().for_each(|row| row.deadline = row.period);
            let split = dice.below(rows.len());
            let found = figures_at(switch, &rows, split).map(|f| (f.best, f.worst));
            let longer = lengthened(switch, &rows);
            let others: Vec<&Row> = longer[1..].iter().collect();
            let (above, below) = others.split_at(split);
            assert_eq!(found, figures_before_deadlines(&longer[0], above, below), "{rows:?}");
            in_time += found.is_some() as u32;
        }
        assert!(in_time > 3_000, "{in_time} of 10000 are in time");
    }

    /// A deadline says whether a row is late and nothing else, and no other row's does. No E is past
    /// the period: the load with the tasks above is at most 1 where a busy interval has an end.
    #[test]
    fn deadlines_say_who_is_late_and_nothing_else() {
        let (mut dice, mut overran) = (Dice::new(10), 0);
        for round in 0..4_000 {
            let Table { switch, mut rows, .. } = small_table(&mut dice, 1 + round % 6);
            let split = dice.below(rows.len());
            rows[0].deadline = 5_000;
            let figures = figures_at(switch, &rows, split);
            let worst = figures.map_or(5_001, |figures| figures.worst);
            overran += (figures.is_some() && worst > rows[0].period) as u32;
            assert!(figures.is_none_or(|figures| figures.best <= rows[0].period), "{rows:?}");
            for row in &mut rows[1..] {
                row.deadline = dice.any_size(FAR);
            }
            for deadline in [1, worst - 1, worst, worst + 1, 5_000] {
                rows[0].deadline = deadline.max(1);
                let found = figures_at(switch, &rows, split);
                assert_eq!(found, figures.filter(|_| worst <= rows[0].deadline), "{rows:?}");
            }
        }
        assert!(overran > 300, "{overran} of 4000 overrun");
    }

    #[test]
    fn the_line_of_the_deadline() {
        let refuses = |from: &str, to: &str, number, place| {
            let text = changed(&[(from, to)]);
            assert_eq!(planned(text.as_bytes()), refused(number, place), "{from} {to}");
            assert_eq!(reviewed(text.as_bytes()), refused(number, place), "{from} {to}");
            assert_eq!(crane_says(&text), refusal_says(number, place), "{from} {to}");
        };
        for deadline in [1, 2, 5, 6, 23, 24, 25, 999_999, FAR] {
            let text = changed(&[("deadline=24", &format!("deadline={deadline}"))]);
            assert_eq!(read_table(text.as_bytes()).unwrap().rows[0].deadline, deadline);
        }
        for (line, place) in [("deadline=24", 6), ("deadline=18", 15), ("deadline=200", 24)] {
            for number in ["0", "1000001", "999999999999"] {
                refuses(line, &format!("deadline={number}"), 3, place);
            }
            for number in
                ["", "00", "01", "+1", "-1", "-0", "1 ", " 1", "1\r", "x", "=1", "1000000000000"]
            {
                refuses(line, &format!("deadline={number}"), 2, place);
            }
            for other in [
                "Deadline=1",
                "deadline",
                "deadline1",
                "deadlines=1",
                "dead=1",
                "deadline =1",
                " deadline=1",
                "",
                "period=1",
                "worst=1",
            ] {
                refuses(line, other, 1, place);
            }
            // Gone, twice, before the period and after the worst time.
            let whole = format!("{line}\n");
            refuses(&whole, "", 1, place);
            refuses(&whole, &whole.repeat(2), 1, place + 1);
            let period = format!("{}\n", line.replace("deadline", "period"));
            refuses(&(period.clone() + &whole), &(whole.clone() + &period), 1, place - 1);
            refuses(&period, &(whole.clone() + &period), 1, place - 1);
            let cut = TABLE.find(&whole).unwrap();
            assert_eq!(planned(TABLE[..cut].as_bytes()), refused(1, place));
            assert_eq!(planned(TABLE[..cut + line.len()].as_bytes()), refused(1, place));
        }
        refuses("deadline=24\nworst=6\n", "worst=6\ndeadline=24\n", 1, 6);
        refuses("worst=6\n", "worst=6\ndeadline=24\n", 1, 8);
        refuses("task=11\n", "task=11\ndeadline=24\n", 1, 5);
        refuses("points=0\n", "points=0\ndeadline=24\n", 1, 13);
        assert_eq!(planned(format!("{TABLE}deadline=24\n").as_bytes()), refused(1, 31));
        // As a table was before there were deadlines.
        let old: String =
            TABLE.split_inclusive('\n').filter(|line| !line.starts_with("deadline")).collect();
        assert_eq!(planned(old.as_bytes()), refused(1, 6));
        assert_eq!(reviewed((old + "rank=12\nrank=11\nrank=13\n").as_bytes()), refused(1, 6));
        // What comes first on lines one after another, and that 4 is of the period, not of it.
        refuses("period=24\ndeadline=24", "period=0\ndeadline=0", 3, 5);
        refuses("deadline=24\nworst=6\n", "deadline=0\nworst=25\n", 3, 6);
        refuses("deadline=24\nworst=6\n", "deadline=1000000\nworst=25\n", 4, 7);
        refuses("deadline=24\nworst=6\n", "deadline=1\nworst=25\n", 4, 7);
        assert!(read_table(
            changed(&[("deadline=24\nworst=6", "deadline=1\nworst=24")]).as_bytes()
        )
        .is_ok());
    }

    /// The stored example: two axis loops, 91 and 92, and the heater, 93. Below three jobs of 91 and two
    /// of 92 its W is 58 + 3 × 8 + 2 × 14 = 110, ten past its period; the second job takes 116 + 5 × 8 +
    /// 3 × 14 − 100 = 98. E is 50 + 6. Above either of the others it would make that one late, so that by
    /// its period there is no order.
    #[test]
    fn the_stored_heater_is_planned_by_its_deadline_alone() {
        let patient = include_str!("../../examples/slow-heater.table");
        let short = include_str!("../../examples/slow-heater-short.table");
        assert_eq!(patient.replacen("deadline=150", "deadline=100", 1), short);
        assert_eq!(planned(short.as_bytes()), refused(8, 0));
        let plan = include_bytes!("../../examples/slow-heater.plan").to_vec();
        assert_eq!(planned(patient.as_bytes()), Ok(plan));
        let table = read_table(patient.as_bytes()).unwrap();
        let [first, second, heater] = [0, 1, 2].map(|index| &table.rows[index]);
        assert_eq!(busy(0, heater, &[first, second], &[]), Some((vec![110, 198], 56, 110)));
        for deadline in [110, 149, 151, FAR] {
            let other = patient.replacen("deadline=150", &format!("deadline={deadline}"), 1);
            assert_eq!(planned(other.as_bytes()), planned(patient.as_bytes()), "{deadline}");
        }
        let other = patient.replacen("deadline=150", "deadline=109", 1);
        assert_eq!(planned(other.as_bytes()), refused(8, 0));
        // By its period only: 92 below it needs 14 + 58 and more, and 91 more than 58.
        let review = |ranks: [u64; 3]| {
            let ranks = ranks.map(|rank| format!("rank={rank}\n")).concat();
            reviewed(format!("{short}{ranks}").as_bytes())
        };
        assert_eq!(review([91, 92, 93]), refused(7, 3));
        assert_eq!(review([92, 91, 93]), refused(7, 3));
        assert_eq!(review([91, 93, 92]), refused(7, 3));
        assert_eq!(review([92, 93, 91]), refused(7, 3));
        assert_eq!(review([93, 92, 91]), refused(7, 2));
        assert_eq!(review([93, 91, 92]), refused(7, 2));
    }

    // ---- Curves -------------------------------------------------------------------------

    type Pairs<'a> = &'a [(u64, u64)];

    fn curve(pairs: Pairs) -> Vec<Point> {
        pairs.iter().map(|&(delay, allow)| Point { delay, allow }).collect()
    }

    /// The lines of a curve, that of its number of points first.
    fn lines_of_curve(pairs: Pairs) -> String {
        let lines = |(delay, allow): &(u64, u64)| format!("delay={delay}\nallow={allow}\n");
        let pairs_lines: String = pairs.iter().map(lines).collect();
        format!("points={}\n{pairs_lines}", pairs.len())
    }

    /// The example with curves of its rows, in the table's sequence.
    fn curved(curves: [Pairs; 3]) -> String {
        put_in("points=0\n", curves.map(lines_of_curve))
    }

    #[test]
    fn one_point() {
        let margin = |earliest, jitter| margin_by_curve(&curve(&[(10, 4)]), earliest, jitter);
        for earliest in [1, 9, 10] {
            assert_eq!(margin(earliest, 0), 4_000);
            assert_eq!(margin(earliest, 4), 0);
            assert_eq!(margin(earliest, 5), -1_000);
        }
        for jitter in [0, 4, 5] {
            assert_eq!(margin(11, jitter), -1_000);
            assert_eq!(margin(12, jitter), -2_000);
            assert_eq!(margin(1_000_000, jitter), -999_990_000);
        }
        let none = curve(&[(0, 0)]);
        assert_eq!(margin_by_curve(&none, 1, 0), -1_000);
        assert_eq!(margin_by_curve(&curve(&[(1, 0)]), 1, 0), 0);
        let all = curve(&[(1_000_000, 1_000_000)]);
        assert_eq!(margin_by_curve(&all, 1_000_000, 0), 1_000_000_000);
    }

    /// From (10, 9) to (13, 2): 20/3 at 11 and 13/3 at 12.
    #[test]
    fn between_two_points_it_rounds_down() {
        let margin =
            |earliest, jitter| margin_by_curve(&curve(&[(10, 9), (13, 2)]), earliest, jitter);
        assert_eq!([1, 9, 10].map(|earliest| margin(earliest, 8)), [1_000; 3]);
        assert_eq!([5, 6, 7, 8].map(|jitter| margin(11, jitter)), [1_666, 666, -334, -1_334]);
        assert_eq!([3, 4, 5, 6].map(|jitter| margin(12, jitter)), [1_333, 333, -667, -1_667]);
        assert_eq!([0, 2, 3].map(|jitter| margin(13, jitter)), [2_000, 0, -1_000]);
        assert_eq!([0, 2, 3].map(|jitter| margin(14, jitter)), [-1_000; 3]);
        assert_eq!(margin(15, 0), -2_000);
    }

    #[test]
    fn fractions_of_a_thousandth() {
        // A tick after (0, 1000000) a millionth is gone.
        let shallow = curve(&[(0, 1_000_000), (1_000_000, 999_999)]);
        assert_eq!(margin_by_curve(&shallow, 1, 999_999), 999);
        assert_eq!(margin_by_curve(&shallow, 1, 1_000_000), -1);
        assert_eq!(margin_by_curve(&shallow, 999_999, 999_999), 0);
        assert_eq!(margin_by_curve(&shallow, 999_999, 1_000_000), -1_000);
        assert_eq!(margin_by_curve(&shallow, 1_000_000, 999_999), 0);
        // A tick less for each tick more.
        let steep = curve(&[(0, 1_000_000), (1_000_000, 0)]);
        for (earliest, jitter) in [(1, 999_999), (500_000, 500_000), (1_000_000, 0)] {
            assert_eq!(margin_by_curve(&steep, earliest, jitter), 0);
            assert_eq!(margin_by_curve(&steep, earliest, jitter + 1), -1_000);
        }
        assert_eq!(margin_by_curve(&steep, 1, 0), 999_999_000);
    }

    #[test]
    fn eight_points_a_tick_apart_have_nothing_between() {
        let allows = [90, 90, 80, 41, 40, 7, 0, 0];
        let pairs: Vec<_> =
            allows.into_iter().enumerate().map(|(at, a)| (at as u64 + 5, a)).collect();
        let margin = |earliest, jitter| margin_by_curve(&curve(&pairs), earliest, jitter);
        for (delay, allow) in &pairs {
            assert_eq!(margin(*delay, *allow), 0, "{delay}");
            assert_eq!(margin(*delay, allow + 1), -1_000, "{delay}");
        }
        assert_eq!((margin(4, 0), margin(12, 0), margin(13, 0)), (90_000, 0, -1_000));
    }

    #[test]
    fn eight_points_apart() {
        let pairs =
            [(10, 80), (20, 70), (24, 70), (30, 64), (100, 50), (107, 7), (200, 1), (300, 0)];
        let at = |earliest| margin_by_curve(&curve(&pairs), earliest, 0);
        assert_eq!([1, 10, 11, 15, 20].map(at), [80_000, 80_000, 79_000, 75_000, 70_000]);
        assert_eq!([21, 24, 25, 30].map(at), [70_000, 70_000, 69_000, 64_000]);
        assert_eq!([31, 65, 99, 100].map(at), [63_800, 57_000, 50_200, 50_000]);
        // 43 fewer in 7 ticks, 6 fewer in 93, 1 fewer in 100.
        assert_eq!([101, 103, 106, 107].map(at), [43_857, 31_571, 13_142, 7_000]);
        assert_eq!([108, 199, 200].map(at), [6_935, 1_064, 1_000]);
        assert_eq!([201, 250, 299, 300, 301].map(at), [990, 500, 10, 0, -1_000]);
    }

    #[test]
    fn equal_allows_and_allows_of_0() {
        let level = curve(&[(3, 6), (9, 6), (90, 6)]);
        for earliest in [1, 3, 4, 9, 10, 47, 89, 90] {
            assert_eq!(margin_by_curve(&level, earliest, 6), 0);
            assert_eq!(margin_by_curve(&level, earliest, 7), -1_000);
        }
        assert_eq!(margin_by_curve(&level, 91, 0), -1_000);
        let falling = curve(&[(5, 3), (8, 0), (10, 0)]);
        assert_eq!(
            [5, 6, 7, 8, 9, 10].map(|at| margin_by_curve(&falling, at, 0)),
            [3_000, 2_000, 1_000, 0, 0, 0]
        );
        assert_eq!(margin_by_curve(&falling, 10, 1), -1_000);
        assert_eq!(margin_by_curve(&falling, 11, 0), -1_000);
    }

    /// The margin by the request's words: of the whole numbers that are not above a thousand times
    /// what is permitted beyond the jitter the largest, found by trying. The line is taken from its
    /// upper end down, in ticks times the ticks between the points.
    fn margin_by_trying(curve: &[Point], earliest: u64, jitter: u64) -> i64 {
        let (e, j) = (earliest as i64, jitter as i64);
        let (first, last) = (curve[0], curve[curve.len() - 1]);
        if earliest > last.delay {
            return 1_000 * (last.delay as i64 - e);
        }
        if earliest <= first.delay {
            return 1_000 * (first.allow as i64 - j);
        }
        let after = curve.iter().position(|point| point.delay >= earliest).unwrap();
        let (from, to) = (curve[after - 1], curve[after]);
        let run = (to.delay - from.delay) as i64;
        let gone = (from.allow - to.allow) as i64 * (e - from.delay as i64);
        let beyond = (from.allow as i64 - j) * run - gone;
        let near = 1_000 * (from.allow as i64 - j);
        let fits = |margin: &i64| margin * run <= 1_000 * beyond;
        let lowest = 1_000 * (to.allow as i64 - j);
        (lowest..=near).rev().find(fits).unwrap()
    }

    #[test]
    fn margins_agree_with_trying() {
        let (mut dice, mut fractions) = (Dice::new(7), 0);
        for _ in 0..20_000 {
            let mut curve = Vec::new();
            while curve.is_empty() {
                curve = small_curve(&mut dice, 8, 12);
            }
            let (earliest, jitter) = (dice.between(1, 60), dice.between(0, 30));
            let margin = margin_by_curve(&curve, earliest, jitter);
            assert_eq!(margin, margin_by_trying(&curve, earliest, jitter), "{curve:?} {earliest}");
            fractions += (margin % 1_000 != 0) as u64;
            // A tick of jitter is a thousand, and a longer response never gains.
            if earliest <= curve[curve.len() - 1].delay {
                assert_eq!(margin_by_curve(&curve, earliest, jitter + 1), margin - 1_000);
            }
            let later = permitted(&curve, earliest + 1);
            if let (Some(now), Some(later)) = (permitted(&curve, earliest), later) {
                assert!(later.upper * now.lower <= now.upper * later.lower, "{curve:?} {earliest}");
            }
        }
        assert!(fractions > 2_000, "{fractions} margins are rounded");
    }

    /// Each row of the example where the plan has it: 12 with E 2 and jitter 0, 11 with 6 and 2, 13
    /// with 25 and 10.
    #[test]
    fn the_example_by_its_curves() {
        let margins = |curves: [Pairs; 3]| {
            let text = curved(curves) + "rank=12\nrank=11\nrank=13\n";
            let figures = String::from_utf8(reviewed(text.as_bytes()).unwrap()).unwrap();
            let margins = figures.lines().filter_map(|line| line.strip_prefix("margin="));
            margins.map(|margin| margin.parse().unwrap()).collect::<Vec<i64>>()
        };
        assert_eq!(margins([&[], &[], &[]]), [6000, 0, 2000]);
        assert_eq!(margins([&[], &[], &[(25, 10)]]), [6000, 0, 0]);
        assert_eq!(margins([&[], &[], &[(25, 9)]]), [6000, 0, -1000]);
        assert_eq!(margins([&[], &[], &[(24, 99)]]), [6000, 0, -1000]);
        assert_eq!(margins([&[], &[], &[(0, 99)]]), [6000, 0, -25000]);
        assert_eq!(margins([&[], &[], &[(20, 13), (30, 8)]]), [6000, 0, 500]);
        assert_eq!(margins([&[], &[], &[(20, 13), (30, 7)]]), [6000, 0, 0]);
        assert_eq!(margins([&[], &[], &[(20, 12), (30, 7)]]), [6000, 0, -500]);
        assert_eq!(margins([&[], &[], &[(24, 11), (27, 8)]]), [6000, 0, 0]);
        assert_eq!(margins([&[], &[], &[(23, 11), (26, 9)]]), [6000, 0, -334]);
        assert_eq!(margins([&[(6, 2)], &[(0, 7), (9, 1)], &[]]), [5666, 0, 2000]);
        assert_eq!(margins([&[(5, 2)], &[(1, 0)], &[(1, 1), (100, 0)]]), [-1000, -1000, -9243]);
    }

    #[test]
    fn orders_that_only_a_curve_permits_and_only_the_line() {
        let plan = |curves: [Pairs; 3]| planned(curved(curves).as_bytes());
        let order = |curves: [Pairs; 3]| tasks_of(plan(curves));
        assert_eq!(curved([&[], &[], &[]]), TABLE);
        // Task 13 is the lowest in each order in time.
        assert_eq!(order([&[], &[], &[(25, 10)]]), ["12", "11", "13"]);
        assert_eq!(plan([&[], &[], &[(25, 9)]]), refused(8, 0));
        assert_eq!(plan([&[], &[], &[(24, 10)]]), refused(8, 0));
        assert_eq!(plan([&[], &[], &[(20, 12), (30, 7)]]), refused(8, 0));
        let strict = |text: String| planned(text.replace("57000", "54999").as_bytes());
        assert_eq!(strict(curved([&[], &[], &[]])), refused(8, 0));
        assert_eq!(tasks_of(strict(curved([&[], &[], &[(25, 10)]]))), ["12", "11", "13"]);
        // 11 below 12 has a jitter of 2, on top none.
        assert_eq!(order([&[(6, 2)], &[], &[]]), ["12", "11", "13"]);
        assert_eq!(order([&[(6, 1)], &[], &[]]), ["11", "12", "13"]);
        assert_eq!(order([&[(6, 0)], &[], &[]]), ["11", "12", "13"]);
        assert_eq!(plan([&[(5, 9)], &[], &[]]), refused(8, 0));
        // 12 below 11 has a jitter of 6: with less of it the two have no order.
        assert_eq!(order([&[(6, 1)], &[(2, 6)], &[]]), ["11", "12", "13"]);
        assert_eq!(plan([&[(6, 1)], &[(2, 5)], &[]]), refused(8, 0));
        assert_eq!(plan([&[(6, 1)], &[(1, 6)], &[]]), refused(8, 0));
        assert_eq!(order([&[(6, 1)], &[(1, 7), (3, 5)], &[(25, 10)]]), ["11", "12", "13"]);
    }

    #[test]
    fn alpha_and_beta_are_read_and_not_used() {
        let curves: [Pairs; 3] = [&[(6, 2)], &[(2, 6)], &[(20, 13), (30, 7)]];
        let text = curved(curves);
        let plan = planned(text.as_bytes());
        assert!(plan.is_ok());
        let other = text.replace("beta=8000", "beta=0").replace("beta=57000", "beta=200000000000");
        let other = other.replace("alpha=1000", "alpha=100000");
        assert_eq!(planned(other.as_bytes()), plan);
        let refuses = |from: &str, to: &str, number, place| {
            assert_eq!(planned(text.replacen(from, to, 1).as_bytes()), refused(number, place));
        };
        refuses("alpha=1000", "alpha=999", 3, 9);
        refuses("alpha=1000", "alpha=100001", 3, 9);
        refuses("beta=8000", "beta=200000000001", 3, 10);
        refuses("beta=57000", "beta=", 2, 32);
    }

    /// W, E and late are as without points.
    #[test]
    fn a_curve_changes_the_margin_alone() {
        let mut dice = Dice::new(8);
        for round in 0..4_000 {
            let Table { switch, rows, .. } = small_table(&mut dice, 1 + round % 6);
            let straight = |row: &Row| Row { curve: Vec::new(), ..row.clone() };
            let lines: Vec<Row> = rows.iter().map(straight).collect();
            let split = dice.below(rows.len());
            let (one, other) =
                (figures_at(switch, &rows, split), figures_at(switch, &lines, split));
            let times = |figures: Figures| (figures.best, figures.worst, figures.jitter);
            assert_eq!(one.map(times), other.map(times), "{rows:?}");
        }
        // Late whatever the curve permits.
        let wide: Pairs = &[(0, 1_000_000), (1_000_000, 1_000_000)];
        let late = curved([wide, wide, wide]) + "rank=11\nrank=13\nrank=12\n";
        assert_eq!(reviewed(late.as_bytes()), refused(7, 3));
    }

    #[test]
    fn curves_beside_holds_and_a_switch() {
        let curves: [Pairs; 3] = [&[(6, 2)], &[(2, 1)], &[(17, 18), (18, 17)]];
        let ranks = "rank=12\nrank=11\nrank=13\n";
        let figured = |text: String| {
            let figures = reviewed((text + ranks).as_bytes()).unwrap();
            let lines = String::from_utf8(figures).unwrap();
            let margins = lines.lines().filter_map(|line| line.strip_prefix("margin="));
            margins.map(str::to_string).collect::<Vec<_>>()
        };
        // With a hold of 2 task 13 has E 17 and jitter 18, and those above have a tick more of it.
        let held = curved(curves).replace("57000\nhold=0", "57000\nhold=2");
        assert_eq!(figured(held), ["0", "-1000", "0"]);
        assert_eq!(figured(curved(curves)), ["1000", "0", "-7000"]);
        // Under a switch of 1 the jitters are 1, 4 and 18.
        let switched = curved(curves).replace("switch=0", "switch=1");
        assert_eq!(figured(switched), ["0", "-2000", "-7000"]);
    }

    /// One loop of ten ticks of which no other has any, with these lines after its hold.
    fn after_hold(lines: &str) -> String {
        format!(
            "board=1\ntasks=1\nswitch=0\ntask=1\nperiod=10\ndeadline=10\nworst=10\nbest=10\n\
            alpha=1000\nbeta=0\nhold=0\n{lines}"
        )
    }

    /// That all programs refuse these lines after a hold so; the watcher is tried in `watches`.
    fn refuses_lines(lines: &str, number: u64, place: u64) {
        let text = after_hold(lines);
        assert_eq!(planned(text.as_bytes()), refused(number, place), "{lines:?}");
        assert_eq!(reviewed(text.as_bytes()), refused(number, place), "{lines:?}");
        assert_eq!(crane_says(&text), refusal_says(number, place), "{lines:?}");
        let after = text.clone() + TABLE;
        if text.ends_with('\n') {
            assert_eq!(crane_says(&after), refusal_says(number, place) + PLAN, "{lines:?}");
        }
    }

    const EIGHT: [(u64, u64); 8] =
        [(1, 90), (5, 80), (6, 80), (9, 60), (10, 50), (20, 30), (30, 10), (31, 0)];

    #[test]
    fn the_line_of_the_points() {
        for points in 0..=8 {
            let text = after_hold(&lines_of_curve(&EIGHT[..points]));
            let curves = read_table(text.as_bytes()).map(|table| table.rows[0].curve.clone());
            assert_eq!(curves, Ok(curve(&EIGHT[..points])));
        }
        for points in [9, 10, 16, 1_000_000, 999_999_999_999u64] {
            refuses_lines(&lines_of_curve(&EIGHT).replace("=8\n", &format!("={points}\n")), 3, 12);
        }
        for number in
            ["", "00", "08", "-1", "-0", "+1", "1 ", " 1", "1\r", "x", "=1", "1000000000000"]
        {
            refuses_lines(&format!("points={number}\n"), 2, 12);
        }
        for line in [
            "Points=0",
            "points",
            "points0",
            "point=0",
            "pointss=0",
            "points =0",
            " points=0",
            "",
            "hold=0",
            "delay=0",
        ] {
            refuses_lines(&format!("{line}\n"), 1, 12);
        }
        refuses_lines("", 1, 12);
        refuses_lines("points=0", 1, 12);
        refuses_lines("points=8", 1, 12);
        let refuses = |from: &str, to: &str, number, place| {
            let text = changed(&[(from, to)]);
            assert_eq!(planned(text.as_bytes()), refused(number, place), "{from} {to}");
            assert_eq!(reviewed(text.as_bytes()), refused(number, place), "{from} {to}");
        };
        refuses("hold=0\npoints=0\n", "points=0\nhold=0\n", 1, 11);
        refuses("points=0\n", "points=0\npoints=0\n", 1, 13);
        refuses("points=0\ntask=13", "task=13", 1, 21);
        // As a table was before there were curves.
        let old = TABLE.replace("points=0\n", "");
        assert_eq!(planned(old.as_bytes()), refused(1, 12));
        assert_eq!(reviewed((old + "rank=12\nrank=11\nrank=13\n").as_bytes()), refused(1, 12));
        assert_eq!(reviewed(format!("{TABLE}points=0\n").as_bytes()), refused(1, 31));
    }

    #[test]
    fn as_many_pairs_as_the_points_say() {
        let pairs = |points: u64, pairs: usize| {
            lines_of_curve(&EIGHT[..pairs]).replacen(&format!("={pairs}"), &format!("={points}"), 1)
        };
        for points in 0..=8 {
            for there in 0..=8 {
                // The first pair too many, or the first that is missing.
                let place = 13 + 2 * points.min(there as u64);
                if points == there as u64 {
                    assert!(read_table(after_hold(&pairs(points, there)).as_bytes()).is_ok());
                } else {
                    let text = after_hold(&pairs(points, there));
                    assert_eq!(planned(text.as_bytes()), refused(1, place));
                    assert_eq!(reviewed((text + "rank=1\n").as_bytes()), refused(1, place));
                }
            }
        }
        // An allow that is missing, the last and not the last; a delay alone too many.
        refuses_lines("points=1\ndelay=1\n", 1, 14);
        refuses_lines("points=2\ndelay=1\nallow=1\ndelay=2\n", 1, 16);
        refuses_lines("points=2\ndelay=1\ndelay=2\nallow=1\n", 1, 14);
        let long = after_hold("points=1\ndelay=1\nallow=1\ndelay=2\n");
        assert_eq!(planned(long.as_bytes()), refused(1, 15));
        refuses_lines("points=1\nallow=1\ndelay=1\n", 1, 13);
        // In the middle of a table the next row stands where a pair should, or a pair for a row.
        let few = curved([&[(6, 2)], &[], &[]]).replace("points=1", "points=2");
        assert_eq!(planned(few.as_bytes()), refused(1, 15));
        let many = curved([&[(6, 2)], &[], &[]]).replace("points=1", "points=0");
        assert_eq!(planned(many.as_bytes()), refused(1, 13));
    }

    /// The lines of eight pairs with another number on one of them; `line` counts from 0.
    fn with_line(line: usize, number: &str) -> String {
        let text = lines_of_curve(&EIGHT);
        let mut lines: Vec<String> = text.lines().map(str::to_string).collect();
        let (key, _) = lines[line].split_once('=').unwrap();
        lines[line] = format!("{key}={number}");
        lines.into_iter().map(|line| line + "\n").collect()
    }

    #[test]
    fn refusal_11_on_each_line_where_it_can_be() {
        for at in 0..8 {
            let (delay_line, allow_line) = (1 + 2 * at, 2 + 2 * at);
            let (delay_place, allow_place) = (delay_line as u64 + 12, allow_line as u64 + 12);
            // 1 to 3 on each line, the first pair's among them.
            for (line, place) in [(delay_line, delay_place), (allow_line, allow_place)] {
                refuses_lines(&with_line(line, "1000001"), 3, place);
                refuses_lines(&with_line(line, "999999999999"), 3, place);
                for form in ["", "00", "01", "-1", "+1", "1 ", "1\r", "1000000000000"] {
                    refuses_lines(&with_line(line, form), 2, place);
                }
                let whole = lines_of_curve(&EIGHT);
                let lines: Vec<&str> = whole.split_inclusive('\n').collect();
                refuses_lines(&lines[..line].concat(), 1, place);
                let cut = lines[..=line].concat();
                refuses_lines(cut.strip_suffix('\n').unwrap(), 1, place);
                let other = [&lines[..line].concat(), "Delay=7\n", &lines[line + 1..].concat()];
                refuses_lines(&other.concat(), 1, place);
            }
            if at == 0 {
                continue;
            }
            let (delay, allow) = EIGHT[at - 1];
            refuses_lines(&with_line(delay_line, &delay.to_string()), 11, delay_place);
            refuses_lines(&with_line(delay_line, &(delay - 1).to_string()), 11, delay_place);
            refuses_lines(&with_line(delay_line, "0"), 11, delay_place);
            refuses_lines(&with_line(allow_line, &(allow + 1).to_string()), 11, allow_place);
            refuses_lines(&with_line(allow_line, "1000000"), 11, allow_place);
            // One more than the delay before, and just the allow before, end the curve well.
            let mut pairs = EIGHT[..at].to_vec();
            pairs.push((delay + 1, allow));
            assert!(read_table(after_hold(&lines_of_curve(&pairs)).as_bytes()).is_ok());
        }
    }

    #[test]
    fn refusal_11_comes_after_the_first_pair_and_after_test_3() {
        let accepts = |pairs: Pairs| {
            assert!(read_table(after_hold(&lines_of_curve(pairs)).as_bytes()).is_ok(), "{pairs:?}");
        };
        let refuses = |pairs: Pairs, number, place| {
            refuses_lines(&lines_of_curve(pairs), number, place);
        };
        for pair in [(0, 0), (0, 1_000_000), (1_000_000, 0), (1_000_000, 1_000_000)] {
            accepts(&[pair]);
        }
        accepts(&[(0, 1_000_000), (1_000_000, 0)]);
        accepts(&[(0, 1_000_000), (1_000_000, 1_000_000)]);
        accepts(&[(999_999, 0), (1_000_000, 0)]);
        refuses(&[(1_000_001, 0)], 3, 13);
        refuses(&[(0, 1_000_001)], 3, 14);
        refuses(&[(0, 5), (1, 1_000_001)], 3, 16);
        refuses(&[(1_000_000, 5), (1_000_001, 5)], 3, 15);
        refuses(&[(1_000_000, 5), (1_000_000, 5)], 11, 15);
        refuses(&[(7, 5), (7, 5)], 11, 15);
        refuses(&[(7, 5), (6, 9)], 11, 15);
        refuses(&[(7, 5), (8, 6)], 11, 16);
        // Beside the pair before it, not beside others.
        refuses(&[(1, 9), (5, 8), (3, 7)], 11, 17);
        refuses(&[(1, 9), (2, 5), (3, 6)], 11, 18);
        // The first fault ends the reading.
        refuses(&[(7, 5), (7, 1_000_001)], 11, 15);
        refuses(&[(7, 5), (8, 6), (8, 5)], 11, 16);
        // Each row begins anew.
        let anew = curved([&[(900, 5), (901, 0)], &[(1, 9), (2, 8)], &[(1, 9)]]);
        assert!(read_table(anew.as_bytes()).is_ok());
        let second = curved([&[(1, 9), (2, 8)], &[(9, 9), (9, 8)], &[]]);
        assert_eq!(planned(second.as_bytes()), refused(11, 28));
        let third = curved([&[], &[(1, 9)], &[(1, 1), (2, 1), (3, 2)]]);
        assert_eq!(planned(third.as_bytes()), refused(11, 38));
    }

    #[test]
    fn each_row_of_a_full_table_may_have_all_points() {
        let (table, ranks) = loops(16);
        let curve = lines_of_curve(&EIGHT);
        let text = table.replace("points=0\n", &curve);
        let plan = planned(text.as_bytes());
        // E is 1 and each jitter at most 15, so that each order is stable.
        assert_eq!(tasks_of(plan.clone()), tasks_of(planned(table.as_bytes())));
        assert_eq!(reviewed(format!("{text}{ranks}").as_bytes()), plan);
        assert_eq!(reviewed(text.as_bytes()), refused(1, 404));
        let last = "points=8\n".len() + text.rfind("points=8\n").unwrap();
        let spoiled = text[..last].to_string() + &text[last..].replace("delay=31", "delay=30");
        assert_eq!(planned(spoiled.as_bytes()), refused(11, 402));
        // The longest rows there are still leave room in what the program takes.
        let row = "task=65535\nperiod=1000000\ndeadline=1000000\nworst=1000000\nbest=1000000\n\
            alpha=100000\nbeta=200000000000\nhold=1000000\npoints=8\n";
        let of_a_task =
            row.len() + 8 * "delay=1000000\nallow=1000000\n".len() + "rank=65535\n".len();
        let longest = "board=65535\ntasks=16\nswitch=1000\n".len() + MOST_TASKS * of_a_task;
        assert!(longest < TABLE_TAKES, "{longest}");
    }

    /// No margin of a curve is longer than the longest of a line.
    #[test]
    fn the_margins_of_curves_are_short() {
        let widest = curve(&[(0, 1_000_000), (1_000_000, 0)]);
        assert!(margin_by_curve(&widest, 1, 0) <= 1_000_000_000);
        assert_eq!(margin_by_curve(&curve(&[(0, 0)]), 1_000_000, 0), -1_000_000_000);
        assert_eq!(margin_by_curve(&curve(&[(1, 0)]), 1, 999_999), -999_999_000);
    }

    #[test]
    fn boards_of_a_crane_with_and_without_points() {
        let curves: [Pairs; 3] = [&[], &[], &[(25, 10)]];
        let (bent, none) = (curved(curves), curved([&[], &[], &[(25, 9)]]));
        let wrong = curved([&[], &[(1, 1), (1, 1)], &[]]);
        let plan = PLAN.replace("margin=2000", "margin=0");
        let answers = [PLAN.to_string(), plan, refusal_says(8, 0), refusal_says(11, 24)];
        let text = [TABLE, &bent, &none, &wrong, TABLE, &bent].concat();
        assert_eq!(crane_says(&text), answers.concat() + &answers[0] + &answers[1]);
    }

    /// The stored example: a long lens, task 84, below pan, tilt and zoom. W is 60 + 2 × 18 + 2 × 16 +
    /// 24 = 152, E is 40, since none above has a whole period in it, and the jitter 112. The line
    /// permits (260000 − 40000) / 2500 = 88 and costs 40000 + 2500 × 112 = 320000. The curve falls from
    /// 140 by 15 in 65 ticks, of which 25 have passed: 140 − 15 × 25 / 65 is 22 and 3/13 above 112.
    #[test]
    fn the_stored_lens_is_stable_by_its_curve_alone() {
        let curve = include_str!("../../examples/long-lens.table");
        let line = include_str!("../../examples/long-lens-line.table");
        let bent = read_table(curve.as_bytes()).unwrap();
        let straight = |row: &Row| Row { curve: Vec::new(), ..row.clone() };
        let rows = bent.rows.iter().map(straight).collect();
        assert_eq!(read_table(line.as_bytes()), Ok(Table { rows, ..bent.clone() }));
        let figures = |table: &Table| figures_of_order(table, &[1, 0, 2, 3]).unwrap()[3];
        let lens = figures(&bent);
        assert_eq!(lens, Figures { best: 40, worst: 152, jitter: 112, margin: 22_230 });
        let straight = figures(&read_table(line.as_bytes()).unwrap());
        assert_eq!(straight, Figures { margin: -60_000, ..lens });
        assert_eq!(tasks_of(planned(curve.as_bytes())), ["82", "81", "83", "84"]);
        assert_eq!(planned(line.as_bytes()), refused(8, 0));
        assert_eq!(
            planned(curve.as_bytes()),
            Ok(include_bytes!("../../examples/long-lens.plan").to_vec())
        );
    }

    // ---- The crane ----------------------------------------------------------------------

    /// What the crane says to a text of at most 32 pieces.
    fn crane_says(text: &str) -> String {
        String::from_utf8(craned(text.as_bytes()).unwrap()).unwrap()
    }

    fn refusal_says(number: u64, place: u64) -> String {
        format!("plan=0\nrefusal={number}\nline={place}\n")
    }

    #[test]
    fn a_text_without_a_board_line_is_one_piece() {
        assert_eq!(crane_says(""), refusal_says(1, 1));
        assert_eq!(crane_says("\n"), refusal_says(1, 1));
        assert_eq!(crane_says("tasks=1\ntasks=1\n"), refusal_says(1, 1));
        assert_eq!(crane_says("board7\nboard7\n"), refusal_says(1, 1));
    }

    #[test]
    fn one_board_line_is_one_piece() {
        assert_eq!(crane_says("board="), refusal_says(1, 1));
        assert_eq!(crane_says("board=\n"), refusal_says(2, 1));
        assert_eq!(crane_says("board=0\n"), refusal_says(3, 1));
        assert_eq!(crane_says("board=7\n"), refusal_says(1, 2));
        assert_eq!(crane_says(TABLE), PLAN);
    }

    #[test]
    fn bytes_ahead_are_a_piece_only_if_a_line_feed_ends_them() {
        for ahead in ["\n", "x\n", "\r\n", "boa\n", "tasks=3\n", "x\n\n\ny\n"] {
            assert_eq!(crane_says(&format!("{ahead}{TABLE}")), refusal_says(1, 1) + PLAN);
        }
        for ahead in ["x", " ", "\r", "\0", "\u{feff}", "board"] {
            assert_eq!(crane_says(&format!("{ahead}{TABLE}")), refusal_says(1, 1));
        }
        // The piece ahead is read as a table too, and it cannot be one.
        assert_eq!(crane_says(&format!("x\ny{TABLE}{TABLE}")), refusal_says(1, 1) + PLAN);
    }

    #[test]
    fn a_board_in_the_middle_of_a_line_cuts_nothing() {
        let inside = changed(&[("task=11\n", "task=11board=7\n")]);
        assert_eq!(crane_says(&inside), refusal_says(2, 4));
        assert_eq!(crane_says("board=board=\n"), refusal_says(2, 1));
        let unended = TABLE.strip_suffix('\n').unwrap();
        for between in ["", "\r", "\0", " ", "\u{b}", "\u{c}", "\u{2028}"] {
            let melted = format!("{unended}{between}{TABLE}");
            assert_eq!(crane_says(&melted), refusal_says(2, 30));
        }
    }

    #[test]
    fn a_line_that_only_looks_like_a_board_line_cuts_nothing() {
        for line in ["board", "board7", "Board=7", " board=7", "\rboard=7", "board =7", "boards=7"]
        {
            let text = format!("{TABLE}{line}\n{TABLE}");
            assert_eq!(crane_says(&text), refusal_says(1, 31) + PLAN);
        }
    }

    #[test]
    fn carriage_returns_belong_to_their_lines() {
        let ended = TABLE.replace('\n', "\r\n");
        assert_eq!(crane_says(&ended.repeat(2)), refusal_says(2, 1).repeat(2));
        assert_eq!(crane_says(&format!("{ended}{TABLE}")), refusal_says(2, 1) + PLAN);
    }

    #[test]
    fn a_text_may_end_in_a_board_line() {
        assert_eq!(crane_says(&format!("{TABLE}board=")), format!("{PLAN}{}", refusal_says(1, 1)));
        assert_eq!(crane_says("\nboard="), refusal_says(1, 1).repeat(2));
        for end in ["b", "boa", "board"] {
            assert_eq!(crane_says(&format!("{TABLE}{end}")), refusal_says(1, 31));
        }
    }

    #[test]
    fn thirty_two_pieces_and_no_more() {
        let crane = |ahead: &str, boards: usize| format!("{ahead}{}", TABLE.repeat(boards));
        assert_eq!(crane_says(&crane("", 32)), PLAN.repeat(32));
        assert_eq!(crane_says(&crane("x\n", 31)), refusal_says(1, 1) + &PLAN.repeat(31));
        assert_eq!(craned(crane("", 33).as_bytes()), refused(10, 0));
        assert_eq!(craned(crane("x\n", 32).as_bytes()), refused(10, 0));
        assert_eq!(crane_says(&crane("x", 32)), refusal_says(1, 1) + &PLAN.repeat(31));
        // None of the pieces is a table, or only the last that makes it too many.
        assert_eq!(crane_says(&"board=\n".repeat(32)), refusal_says(2, 1).repeat(32));
        assert_eq!(craned("board=\n".repeat(33).as_bytes()), refused(10, 0));
        assert_eq!(craned(format!("{}board=", crane("", 32)).as_bytes()), refused(10, 0));
        assert_eq!(
            crane_says(&format!("{}boa", crane("", 32))),
            PLAN.repeat(31) + &refusal_says(1, 31)
        );
    }

    #[test]
    fn a_refused_piece_changes_no_other() {
        let broken = changed(&[("worst=2", "worst=19")]);
        assert_eq!(
            crane_says(&format!("{TABLE}{broken}{TABLE}")),
            format!("{PLAN}{}{PLAN}", refusal_says(4, 16))
        );
        let unstable = changed(&[("57000", "54999")]);
        let twice = changed(&[("task=12", "task=11")]);
        let pieces = [(unstable, 8, 0), (twice, 5, 13), (format!("{TABLE}rank=11\n"), 1, 31)];
        for (piece, number, place) in pieces {
            let answer = refusal_says(number, place);
            assert_eq!(crane_says(&format!("{piece}{TABLE}")), format!("{answer}{PLAN}"));
            assert_eq!(crane_says(&format!("{TABLE}{piece}")), format!("{PLAN}{answer}"));
        }
    }

    #[test]
    fn a_board_twice_is_two_boards() {
        let other = changed(&[("beta=8000", "beta=7999")]);
        let text = format!("{other}{TABLE}{other}");
        let plan = String::from_utf8(planned(other.as_bytes()).unwrap()).unwrap();
        assert_ne!(plan, PLAN);
        assert_eq!(crane_says(&text), format!("{plan}{PLAN}{plan}"));
    }

    #[test]
    fn an_output_that_does_not_fit_is_refused_whole() {
        let after = |text: &str, length: usize| {
            let mut buffer = vec![200; length];
            let Answer { number, place, length } = written(&craned(text.as_bytes()), &mut buffer);
            ((number, place, length), buffer)
        };
        let plans = format!("{TABLE}{TABLE}");
        let room = 2 * PLAN.len();
        assert_eq!(after(&plans, room), ((0, 0, room as u64), PLAN.repeat(2).into_bytes()));
        assert_eq!(after(&plans, room - 1), ((9, 0, 0), vec![200; room - 1]));
        assert_eq!(after(&plans, PLAN.len()), ((9, 0, 0), vec![200; PLAN.len()]));
        let longer = [PLAN.repeat(2).as_bytes(), &[200, 200]].concat();
        assert_eq!(after(&plans, room + 2), ((0, 0, room as u64), longer));
        // No piece has a plan.
        assert_eq!(after("", 23), ((9, 0, 0), vec![200; 23]));
        assert_eq!(after("", 0), ((9, 0, 0), Vec::new()));
        assert_eq!(after("", 24), ((0, 0, 24), refusal_says(1, 1).into_bytes()));
        assert_eq!(after("board=\nboard=\n", 47), ((9, 0, 0), vec![200; 47]));
        // Too many pieces is said first.
        assert_eq!(after(&TABLE.repeat(33), 0), ((10, 0, 0), Vec::new()));
        assert_eq!(after(&TABLE.repeat(33), 100), ((10, 0, 0), vec![200; 100]));
        assert_eq!(after(&TABLE.repeat(33), 9_000), ((10, 0, 0), vec![200; 9_000]));
    }

    #[test]
    fn the_program_of_the_crane_takes_more_bytes_and_whole_pieces() {
        let says = |input: &[u8]| printed(craned, CRANE_TAKES, input);
        assert_eq!(says(b""), refusal_says(1, 1).as_bytes());
        assert_eq!(says(TABLE.repeat(33).as_bytes()), refusal_says(10, 0).as_bytes());
        // A piece is longer than what the planner's program takes.
        let long = format!("{TABLE}board={}\n{TABLE}", "1".repeat(TABLE_TAKES));
        assert_eq!(says(long.as_bytes()), format!("{PLAN}{}{PLAN}", refusal_says(2, 1)).as_bytes());
        // The limit cuts off a line feed.
        let mut input = TABLE.as_bytes().to_vec();
        input.extend(b"board=");
        input.resize(CRANE_TAKES - 1, b'1');
        input.push(b'\n');
        assert_eq!(says(&input), format!("{PLAN}{}", refusal_says(2, 1)).as_bytes());
        input.insert(CRANE_TAKES - 1, b'1');
        assert_eq!(says(&input), format!("{PLAN}{}", refusal_says(1, 1)).as_bytes());
    }

    /// The longest lines of a plan, each number as long as it can be: W is E and the jitter
    /// together, so that both have six digits where it has seven. They are 1,292 bytes for a plan,
    /// and for a crane 41,344, which is within 64 KiB.
    #[test]
    fn the_longest_lines_have_room() {
        let head = "plan=1\nboard=65535\ntasks=16\n";
        let rank = "rank=16\ntask=65535\nbest=100000\nworst=1000000\njitter=900000\n\
            margin=199000000000\n";
        assert_eq!(head.len() + MOST_TASKS * rank.len(), 1_292);
        assert_eq!(MOST_PIECES * 1_292, 41_344);
    }

    /// A table with long numbers throughout, and its plan: keys, equals signs and line feeds first,
    /// then the digits of ranks, tasks, bests, worsts, jitters and margins.
    #[test]
    fn a_plan_of_long_numbers_is_as_long_as_computed() {
        let table = include_str!("../../examples/longest.table");
        let keys = "rank=\ntask=\nbest=\nworst=\njitter=\nmargin=\n".len();
        let digits = (9 + 7 * 2) + 16 * 5 + (9 * 6 + 7 * 5) + (15 * 6 + 7) + 16 * 6 + 16 * 12;
        let length = 28 + 16 * keys + digits;
        assert_eq!(planned(table.as_bytes()).map(|plan| plan.len()), Ok(length));
        assert_eq!(crane_says(&table.repeat(32)).len(), 32 * length);
        assert_eq!(32 * length, 40_352);
    }

    // ---- The most tasks -----------------------------------------------------------------

    /// A table of so many loops, each of one tick, and the rank lines of the tasks from the last.
    fn loops(tasks: u64) -> (String, String) {
        let row = |task| {
            let times = "period=100\ndeadline=100\nworst=1\nbest=1\n";
            format!("task={task}\n{times}alpha=1000\nbeta=100000\nhold=0\npoints=0\n")
        };
        let rows: String = (1..=tasks).map(row).collect();
        let ranks = (1..=tasks).rev().map(|task| format!("rank={task}\n")).collect();
        (format!("board=7\ntasks={tasks}\nswitch=0\n{rows}"), ranks)
    }

    #[test]
    fn sixteen_tasks_and_no_more() {
        for tasks in [12, 13, 15, 16] {
            // The first of the table is the lowest, for each is stable there.
            let (table, ranks) = loops(tasks);
            let plan = planned(table.as_bytes());
            let last = format!("rank={tasks}\ntask=1\nbest=1\nworst={tasks}\n");
            assert!(String::from_utf8(plan.clone().unwrap()).unwrap().contains(&last));
            assert_eq!(reviewed(format!("{table}{ranks}").as_bytes()), plan);
            assert_eq!(craned(table.as_bytes()), plan);
        }
        for tasks in [17, 18, 64] {
            let (table, ranks) = loops(tasks);
            assert_eq!(planned(table.as_bytes()), refused(3, 2));
            assert_eq!(reviewed(format!("{table}{ranks}").as_bytes()), refused(3, 2));
            let crane = crane_says(&format!("{TABLE}{table}"));
            assert_eq!(crane, PLAN.to_owned() + &refusal_says(3, 2));
        }
        let (table, ranks) = loops(16);
        assert_eq!(planned(format!("{table}rank=1\n").as_bytes()), refused(1, 148));
        assert_eq!(reviewed(format!("{table}{ranks}rank=1\n").as_bytes()), refused(1, 164));
        let twice = table.replace("task=16\n", "task=1\n");
        assert_eq!(planned(twice.as_bytes()), refused(5, 139));
    }

    /// Every text of six parts, each part something that a cut depends on.
    #[test]
    fn the_pieces_are_the_only_ones_that_the_request_allows() {
        let parts = ["", "board=", "board", "=", "\n", "\r", "x"];
        for code in 0..parts.len().pow(6) {
            let part = |at: u32| parts[code / parts.len().pow(at) % parts.len()];
            let text: String = (0..6).map(part).collect();
            let pieces = pieces_of(text.as_bytes());
            let pieces: Vec<&str> =
                pieces.iter().map(|piece| std::str::from_utf8(piece).unwrap()).collect();
            assert_eq!(pieces.concat(), text);
            assert!(pieces.iter().all(|piece| !piece.contains("\nboard=")), "{text:?}");
            assert!(pieces[1..].iter().all(|piece| piece.starts_with("board=")), "{text:?}");
            let ended = pieces.split_last().unwrap().1;
            assert!(ended.iter().all(|piece| piece.ends_with('\n')), "{text:?}");
            assert!(!pieces.contains(&"") || text.is_empty(), "{text:?}");
        }
    }
}
