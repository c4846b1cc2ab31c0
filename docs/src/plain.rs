//! The product's algorithm in plain Rust, written to be fast: what `bench` measures against, and
//! what stands in for the library where none is linked.
//!
//! Sets of rows are bit masks. One byte a set says whether it has a stable order and which row is
//! then the lowest; the search starts from the whole set, so only sets that matter are visited.
//! The rows below the lowest row of a set are those outside it: one blocking time for a set.
//! Once read, a row's worst time has the switch in it, so that nothing past the reader knows of it.
//! The points of all rows are one list beside the rows, which is looked at only for a row that has
//! some, and is empty where no row has any.

use crate::model::{self, Answer, Point, Refusal};
use crate::model::{MOST_FINISH, MOST_PIECES, MOST_POINTS, MOST_TASKS};
use std::collections::VecDeque;

/// The bytes of a plan's three first lines at the most, and of a rank's.
const HEAD_ROOM: usize = 28;
const RANK_ROOM: usize = 79;
/// Room for any plan.
const PLAN_ROOM: usize = HEAD_ROOM + MOST_TASKS * RANK_ROOM;
const UNKNOWN: u8 = 255;
const NONE: u8 = 254;

/// A row as the search has it: which of the table's points are its own, and the rest of its numbers.
#[derive(Clone, Copy)]
pub struct Row {
    task: u64,
    period: u64,
    deadline: u64,
    worst: u64,
    best: u64,
    alpha: u64,
    beta: u64,
    hold: u64,
    first: u32,
    points: u32,
}

pub struct Table {
    board: u64,
    rows: Vec<Row>,
    points: Vec<Point>,
}

/// A table as the reader makes it of its text, for `bench` alone.
#[allow(dead_code)]
pub fn table_of(table: &model::Table) -> Table {
    let mut points = Vec::new();
    let mut row = |row: &model::Row| {
        let first = points.len() as u32;
        points.extend_from_slice(&row.curve);
        let model::Row { task, period, deadline, worst, best, alpha, beta, hold, .. } = *row;
        let worst = worst + table.switch;
        let points = row.curve.len() as u32;
        Row { task, period, deadline, worst, best, alpha, beta, hold, first, points }
    };
    let rows = table.rows.iter().map(&mut row).collect();
    Table { board: table.board, rows, points }
}

// ---- Reading ----------------------------------------------------------------------------

struct Reader<'a> {
    rest: &'a [u8],
    line: u64,
    most_hold: u64,
}

impl Reader<'_> {
    fn new(text: &[u8]) -> Reader<'_> {
        Reader { rest: text, line: 0, most_hold: 1_000_000 }
    }

    fn refusal(&self, number: u64) -> Refusal {
        Refusal { number, place: self.line }
    }

    /// The number on the next line; `key` ends with its equals sign.
    fn number(&mut self, key: &[u8], low: u64, high: u64) -> Result<u64, Refusal> {
        self.line += 1;
        let after = self.rest.strip_prefix(key).ok_or(self.refusal(1))?;
        let end = after.iter().position(|&byte| byte == b'\n').ok_or(self.refusal(1))?;
        let number = digits(&after[..end]).ok_or(self.refusal(2))?;
        self.rest = &after[end + 1..];
        if (low..=high).contains(&number) {
            Ok(number)
        } else {
            Err(self.refusal(3))
        }
    }

    /// The points of a row, put behind those of the rows before it; how many there are.
    fn curve(&mut self, points: &mut Vec<Point>) -> Result<u32, Refusal> {
        let count = self.number(b"points=", 0, MOST_POINTS as u64)? as u32;
        for index in 0..count {
            let last = points.last().filter(|_| index > 0).copied();
            let delay = self.number(b"delay=", 0, 1_000_000)?;
            self.refuse_if(last.is_some_and(|last| delay <= last.delay), 11)?;
            let allow = self.number(b"allow=", 0, 1_000_000)?;
            self.refuse_if(last.is_some_and(|last| allow > last.allow), 11)?;
            points.push(Point { delay, allow });
        }
        Ok(count)
    }

    /// A row with the switch in its worst time.
    fn row(
        &mut self,
        switch: u64,
        before: &[Row],
        points: &mut Vec<Point>,
    ) -> Result<Row, Refusal> {
        let task = self.number(b"task=", 1, 65_535)?;
        self.refuse_if(before.iter().any(|row| row.task == task), 5)?;
        let period = self.number(b"period=", 1, 1_000_000)?;
        let deadline = self.number(b"deadline=", 1, 1_000_000)?;
        let worst = self.number(b"worst=", 1, 1_000_000)?;
        self.refuse_if(worst + switch > period, 4)?;
        let best = self.number(b"best=", 1, 1_000_000)?;
        self.refuse_if(best > worst, 4)?;
        let alpha = self.number(b"alpha=", 1_000, 100_000)?;
        let beta = self.number(b"beta=", 0, 200_000_000_000)?;
        let hold = self.number(b"hold=", 0, self.most_hold)?;
        self.refuse_if(hold > worst, 4)?;
        let first = points.len() as u32;
        let points = self.curve(points)?;
        let worst = worst + switch;
        Ok(Row { task, period, deadline, worst, best, alpha, beta, hold, first, points })
    }

    fn table(&mut self) -> Result<Table, Refusal> {
        let board = self.number(b"board=", 1, 65_535)?;
        let tasks = self.number(b"tasks=", 1, MOST_TASKS as u64)?;
        let switch = self.number(b"switch=", 0, 1_000)?;
        let (mut rows, mut points) = (Vec::with_capacity(MOST_TASKS), Vec::new());
        for _ in 0..tasks {
            rows.push(self.row(switch, &rows, &mut points)?);
        }
        Ok(Table { board, rows, points })
    }

    fn ranks(&mut self, rows: &[Row]) -> Result<Vec<usize>, Refusal> {
        let mut order = Vec::with_capacity(MOST_TASKS);
        for _ in rows {
            let task = self.number(b"rank=", 1, 65_535)?;
            let index = rows.iter().position(|row| row.task == task).ok_or(self.refusal(6))?;
            self.refuse_if(order.contains(&index), 6)?;
            order.push(index);
        }
        Ok(order)
    }

    fn end(&mut self) -> Result<(), Refusal> {
        self.line += 1;
        self.refuse_if(!self.rest.is_empty(), 1)
    }

    fn refuse_if(&self, condition: bool, number: u64) -> Result<(), Refusal> {
        if condition {
            Err(self.refusal(number))
        } else {
            Ok(())
        }
    }
}

fn digits(bytes: &[u8]) -> Option<u64> {
    if bytes.is_empty() || bytes.len() > 12 || bytes[0] == b'0' && bytes.len() > 1 {
        return None;
    }
    let mut number = 0;
    for byte in bytes {
        if !byte.is_ascii_digit() {
            return None;
        }
        number = number * 10 + u64::from(byte - b'0');
    }
    Some(number)
}

// ---- Figures ----------------------------------------------------------------------------

/// What the search of an order has cost so far, whatever the machine: the sets of rows that it looked
/// at, the rows that it tested below a set, the jobs of their busy intervals, the values that it tried
/// for when these are done, and the terms that were added up, beside those of first values.
#[derive(Clone, Copy, Debug, Default)]
pub struct Work {
    pub sets: u64,
    pub tests: u64,
    pub jobs: u64,
    pub values: u64,
    pub terms: u64,
}

/// Where the search for the end of a job begins: as it did before request 6, with what the jobs so far
/// take by themselves; with one job of each task above beside them; or for the first job so, and for
/// each later one with the end of the job before it and its own time, since no solution lies below, or
/// not at all where nothing is released above.
pub const OWN_TIMES: u8 = 0;
pub const ONE_OF_EACH: u8 = 1;
pub const JOB_AFTER_JOB: u8 = 2;

/// The rows above as columns; their work is counted if `COUNTED`, and `START` says where the search
/// for the end of a job begins. Past the most terms every row is late, so that the count has an end.
struct Above<const COUNTED: bool, const START: u8> {
    count: usize,
    period: [u64; MOST_TASKS],
    worst: [u64; MOST_TASKS],
    best: [u64; MOST_TASKS],
    work: Work,
    most: u64,
}

/// How many jobs of a task are released in a time from one of its releases on. That is often within
/// the period, and a test is faster than a division; both are far below 2^31, and a division is faster
/// there than in 64 bits.
fn ceil(time: u64, period: u64) -> u64 {
    if time <= period {
        return 1;
    }
    u64::from((time as u32 + period as u32 - 1) / period as u32)
}

struct Figures {
    best: u64,
    worst: u64,
    margin: i64,
}

impl<const COUNTED: bool, const START: u8> Above<COUNTED, START> {
    fn new(most: u64) -> Self {
        Above {
            count: 0,
            period: [1; MOST_TASKS],
            worst: [0; MOST_TASKS],
            best: [0; MOST_TASKS],
            work: Work::default(),
            most,
        }
    }

    fn push(&mut self, row: &Row) {
        self.period[self.count] = row.period;
        self.worst[self.count] = row.worst;
        self.best[self.count] = row.best;
        self.count += 1;
    }

    fn fill(&mut self, rows: &[Row], mut set: usize) {
        self.count = 0;
        while set != 0 {
            self.push(&rows[set.trailing_zeros() as usize]);
            set &= set - 1;
        }
    }

    fn count_a_sum(&mut self) {
        if COUNTED {
            self.work.terms += 1 + self.count as u64;
        }
    }

    fn count_a_value(&mut self) {
        if COUNTED {
            self.work.values += 1;
        }
    }

    /// The smallest time up to the limit that the base and the jobs above in it fill, from a time on
    /// that is not past it.
    fn filled(&mut self, mut time: u64, base: u64, limit: u64) -> Option<u64> {
        self.count_a_value();
        while time <= limit {
            self.count_a_sum();
            let mut next = base;
            for (period, worst) in self.period[..self.count].iter().zip(&self.worst) {
                next += ceil(time, *period) * worst;
            }
            if next == time {
                return Some(time);
            }
            time = next;
            self.count_a_value();
        }
        None
    }

    /// Where the search begins that knows nothing of an earlier job: the ticks that count once, and what
    /// `START` has beside them.
    fn begun_anew(&self, base: u64) -> u64 {
        let of_each = if START == OWN_TIMES { 0 } else { self.worst[..self.count].iter().sum() };
        base + of_each
    }

    /// The end of the jobs of a busy interval whose last is released at a time, if that is not past its
    /// deadline; the search begins at `begun`.
    fn end(&mut self, row: &Row, release: u64, begun: u64, base: u64) -> Option<u64> {
        if COUNTED {
            self.work.jobs += 1;
            if self.work.terms > self.most {
                return None;
            }
        }
        self.filled(begun, base, MOST_FINISH.min(release + row.deadline))
    }

    /// The response of the first job of a busy interval, if that is in time.
    fn first(&mut self, row: &Row, blocked: u64) -> Option<u64> {
        let base = row.worst + blocked;
        self.end(row, 0, self.begun_anew(base), base)
    }

    /// How many jobs follow one that ends at a time, when the next has been released, each a worst time
    /// after the one before: until one ends before the next release, or a task above is released.
    fn jobs_behind(&mut self, row: &Row, end: u64, release: u64) -> u64 {
        self.count_a_sum();
        let mut steady = MOST_FINISH;
        for period in &self.period[..self.count] {
            steady = steady.min(ceil(end, *period) * period);
        }
        let (room, gained) = ((steady - end) / row.worst, row.period - row.worst);
        if gained == 0 { room } else { room.min((end - release).div_ceil(gained)) }
    }

    /// The longest response of a busy interval whose first job takes so long: job after job up to one
    /// that ends before the next release; none if one of them is past its deadline. Where a job needs no
    /// search, because no task above was released in its time, neither do those behind it; they take
    /// less, and are passed over.
    fn latest_from(&mut self, first: u64, row: &Row, blocked: u64) -> Option<u64> {
        let (mut base, mut release) = (row.worst + blocked, row.period);
        let (mut end, mut longest) = (first, first);
        while release < end {
            base += row.worst;
            let begun =
                if START == JOB_AFTER_JOB { end + row.worst } else { self.begun_anew(base) };
            end = self.end(row, release, begun, base)?;
            longest = longest.max(end - release);
            release += row.period;
            if START == JOB_AFTER_JOB && end == begun && release < end {
                let jobs = self.jobs_behind(row, end, release);
                base += jobs * row.worst;
                end += jobs * row.worst;
                release += jobs * row.period;
            }
        }
        Some(longest)
    }

    fn earliest(&mut self, row: &Row, latest: u64) -> u64 {
        let mut time = latest;
        loop {
            self.count_a_sum();
            let mut next = row.best;
            for (period, best) in self.period[..self.count].iter().zip(&self.best) {
                next += (ceil(time, *period) - 1) * best;
            }
            if next == time {
                return time;
            }
            time = next;
        }
    }

    /// The margin of a row with such responses, the table's points beside it.
    fn margin(row: &Row, best: u64, worst: u64, points: &[Point]) -> i64 {
        if row.points > 0 {
            let curve = &points[row.first as usize..][..row.points as usize];
            return curve_margin(curve, best, worst - best);
        }
        row.beta as i64 - (1_000 * best + row.alpha * (worst - best)) as i64
    }

    /// E, by a latest response or by the first job's, since it lies in the time of either.
    fn best(&mut self, row: &Row, latest: u64) -> u64 {
        if row.hold < 2 { self.earliest(row, latest) } else { row.best }
    }

    /// The figures of a row that the rows below it block for so long.
    fn figures(&mut self, row: &Row, blocked: u64, points: &[Point]) -> Option<Figures> {
        let first = self.first(row, blocked)?;
        let worst = self.latest_from(first, row, blocked)?;
        let best = self.best(row, worst);
        Some(Figures { best, worst, margin: Self::margin(row, best, worst, points) })
    }

    /// Whether a row is stable: where it is not by its first job, the others are not searched. Where all
    /// are not to be searched, a row whose first job overruns its period stays open.
    fn is_stable(
        &mut self,
        row: &Row,
        blocked: u64,
        points: &[Point],
        all_jobs: bool,
    ) -> Option<bool> {
        let Some(first) = self.first(row, blocked) else {
            return Some(false);
        };
        let best = self.best(row, first);
        if Self::margin(row, best, first, points) < 0 {
            return Some(false);
        }
        if !all_jobs && row.period < first {
            return None;
        }
        let worst = self.latest_from(first, row, blocked);
        Some(worst.is_some_and(|worst| Self::margin(row, best, worst, points) >= 0))
    }
}

/// The margin by a curve: what the point before permits beyond the jitter, less what the line has
/// fallen by since, which is rounded up.
fn curve_margin(curve: &[Point], best: u64, jitter: u64) -> i64 {
    let beyond = |allow: u64| 1_000 * (allow as i64 - jitter as i64);
    match curve.iter().position(|point| best <= point.delay) {
        Some(0) => beyond(curve[0].allow),
        Some(after) => {
            let (from, to) = (curve[after - 1], curve[after]);
            let fallen = 1_000 * (from.allow - to.allow) * (best - from.delay);
            beyond(from.allow) - fallen.div_ceil(to.delay - from.delay) as i64
        }
        None => 1_000 * (curve[curve.len() - 1].delay as i64 - best as i64),
    }
}

/// The ticks for which the rows below may block a row.
fn blocking_time<'a>(below: impl Iterator<Item = &'a Row>) -> u64 {
    below.fold(0, |largest, row| row.hold.max(largest)).saturating_sub(1)
}

// ---- The search -------------------------------------------------------------------------

struct Search<'a, const COUNTED: bool, const START: u8> {
    rows: &'a [Row],
    points: &'a [Point],
    lowest: Vec<u8>,
    above: Above<COUNTED, START>,
}

impl<const COUNTED: bool, const START: u8> Search<'_, COUNTED, START> {
    /// Whether a set has an order, with the largest hold outside it.
    fn has_order(&mut self, set: usize, largest: u64) -> bool {
        if self.lowest[set] == UNKNOWN {
            self.lowest[set] = self.find_lowest(set, largest);
        }
        self.lowest[set] != NONE
    }

    fn find_lowest(&mut self, set: usize, largest: u64) -> u8 {
        if COUNTED {
            self.above.work.sets += 1;
        }
        let blocked = largest.saturating_sub(1);
        for index in 0..self.rows.len() {
            let rest = set & !(1 << index);
            if rest == set || self.lowest[rest] == NONE {
                continue;
            }
            // Its later jobs are searched last: they do not count where the rest has no order.
            let stable = self.is_stable(index, rest, blocked, false);
            let outside = self.rows[index].hold.max(largest);
            if stable.unwrap_or(true)
                && self.has_order(rest, outside)
                && stable.or_else(|| self.is_stable(index, rest, blocked, true)) == Some(true)
            {
                return index as u8;
            }
        }
        NONE
    }

    fn is_stable(
        &mut self,
        index: usize,
        rest: usize,
        blocked: u64,
        all_jobs: bool,
    ) -> Option<bool> {
        if COUNTED {
            self.above.work.tests += 1;
        }
        self.above.fill(self.rows, rest);
        self.above.is_stable(&self.rows[index], blocked, self.points, all_jobs)
    }

    /// The order, highest rank first, read off the table of sets from the lowest up.
    fn order(&self) -> Vec<usize> {
        let mut set = self.lowest.len() - 1;
        let mut order = vec![0; self.rows.len()];
        for slot in order.iter_mut().rev() {
            *slot = self.lowest[set] as usize;
            set &= !(1 << *slot);
        }
        order
    }
}

/// The order of the plan, highest rank first, and the work done to find it (0 unless `COUNTED`), or
/// no order and a work of more than `most` terms; the rows have the switch in their worst times.
pub fn chosen<const COUNTED: bool, const START: u8>(
    Table { rows, points, .. }: &Table,
    most: u64,
) -> (Option<Vec<usize>>, Work) {
    let mut lowest = vec![UNKNOWN; 1 << rows.len()];
    lowest[0] = 0;
    let mut search = Search { rows, points, lowest, above: Above::<COUNTED, START>::new(most) };
    let found = search.has_order((1 << rows.len()) - 1, 0);
    (found.then(|| search.order()), search.above.work)
}

// ---- Writing ----------------------------------------------------------------------------

fn push_line(text: &mut Vec<u8>, key: &[u8], mut number: u64) {
    text.extend_from_slice(key);
    let mut reversed = [0; 20];
    let mut start = reversed.len();
    loop {
        start -= 1;
        reversed[start] = b'0' + (number % 10) as u8;
        number /= 10;
        if number == 0 {
            break;
        }
    }
    text.extend_from_slice(&reversed[start..]);
    text.push(b'\n');
}

fn plan_text<const START: u8>(
    Table { board, rows, points }: &Table,
    order: &[usize],
) -> Result<Vec<u8>, Refusal> {
    let mut text = Vec::with_capacity(HEAD_ROOM + rows.len() * RANK_ROOM);
    push_line(&mut text, b"plan=", 1);
    push_line(&mut text, b"board=", *board);
    push_line(&mut text, b"tasks=", rows.len() as u64);
    let mut above = Above::<false, START>::new(u64::MAX);
    for (at, &index) in order.iter().enumerate() {
        let (row, rank) = (&rows[index], at as u64 + 1);
        let blocked = blocking_time(order[at + 1..].iter().map(|&index| &rows[index]));
        let figures = above.figures(row, blocked, points);
        let figures = figures.ok_or(Refusal { number: 7, place: rank })?;
        push_line(&mut text, b"rank=", rank);
        push_line(&mut text, b"task=", row.task);
        push_line(&mut text, b"best=", figures.best);
        push_line(&mut text, b"worst=", figures.worst);
        push_line(&mut text, b"jitter=", figures.worst - figures.best);
        let key: &[u8] = if figures.margin < 0 { b"margin=-" } else { b"margin=" };
        push_line(&mut text, key, figures.margin.unsigned_abs());
        above.push(row);
    }
    Ok(text)
}

fn planned<const START: u8>(text: &[u8]) -> Result<Vec<u8>, Refusal> {
    let mut reader = Reader::new(text);
    let table = reader.table()?;
    reader.end()?;
    let order =
        chosen::<false, START>(&table, u64::MAX).0.ok_or(Refusal { number: 8, place: 0 })?;
    plan_text::<START>(&table, &order)
}

fn reviewed(text: &[u8]) -> Result<Vec<u8>, Refusal> {
    let mut reader = Reader::new(text);
    let table = reader.table()?;
    let order = reader.ranks(&table.rows)?;
    reader.end()?;
    plan_text::<JOB_AFTER_JOB>(&table, &order)
}

fn deliver(plan: Result<Vec<u8>, Refusal>, buffer: &mut [u8]) -> Answer {
    let fits = plan.and_then(|text| match buffer.get_mut(..text.len()) {
        Some(start) => {
            start.copy_from_slice(&text);
            Ok(text.len())
        }
        None => Err(Refusal { number: 9, place: 0 }),
    });
    match fits {
        Ok(length) => Answer { number: 0, place: 0, length: length as u64 },
        Err(Refusal { number, place }) => Answer { number, place, length: 0 },
    }
}

pub fn plan(text: &[u8], buffer: &mut [u8]) -> Answer {
    deliver(planned::<JOB_AFTER_JOB>(text), buffer)
}

/// The same with the search of a latest response as the library had it before request 6, for `bench`
/// alone.
#[allow(dead_code)]
pub fn plan_before(text: &[u8], buffer: &mut [u8]) -> Answer {
    deliver(planned::<OWN_TIMES>(text), buffer)
}

/// The same with the search begun anew for each job of a busy interval, for `bench` alone.
#[allow(dead_code)]
pub fn plan_anew(text: &[u8], buffer: &mut [u8]) -> Answer {
    deliver(planned::<ONE_OF_EACH>(text), buffer)
}

pub fn review(text: &[u8], buffer: &mut [u8]) -> Answer {
    deliver(reviewed(text), buffer)
}

// ---- The crane --------------------------------------------------------------------------

/// Where the piece that begins at `start` ends: before the next board line or with the text.
fn end_of_piece(text: &[u8], start: usize) -> usize {
    let mut at = start + 1;
    while at < text.len() {
        if text[at - 1] == b'\n' && text[at..].starts_with(b"board=") {
            return at;
        }
        at += 1;
    }
    text.len()
}

fn ends_of_pieces(text: &[u8]) -> Vec<usize> {
    let mut end = end_of_piece(text, 0);
    let mut ends = vec![end];
    while end < text.len() {
        end = end_of_piece(text, end);
        ends.push(end);
    }
    ends
}

/// Adds what a single call on the piece prints.
fn push_piece(output: &mut Vec<u8>, piece: &[u8]) {
    let mut room = [0; PLAN_ROOM];
    let answer = plan(piece, &mut room);
    if answer.number == 0 {
        output.extend_from_slice(&room[..answer.length as usize]);
    } else {
        push_line(output, b"plan=", 0);
        push_line(output, b"refusal=", answer.number);
        push_line(output, b"line=", answer.place);
    }
}

fn craned(text: &[u8]) -> Result<Vec<u8>, Refusal> {
    let ends = ends_of_pieces(text);
    if ends.len() > MOST_PIECES {
        return Err(Refusal { number: 10, place: 0 });
    }
    let (mut output, mut start) = (Vec::new(), 0);
    for end in ends {
        push_piece(&mut output, &text[start..end]);
        start = end;
    }
    Ok(output)
}

pub fn crane(text: &[u8], buffer: &mut [u8]) -> Answer {
    deliver(craned(text), buffer)
}

// ---- The board to watch -----------------------------------------------------------------

/// A rank of a board: its next release, and of its unfinished jobs, the oldest first, the release and
/// the ticks that are left.
struct Rank {
    task: u64,
    period: u64,
    least: u64,
    most: u64,
    next: u64,
    jobs: VecDeque<(u64, u64)>,
}

impl Reader<'_> {
    /// The ranks with the first releases, which have the sequence of the rows.
    fn releases(&mut self, rows: &[Row], order: &[usize]) -> Result<Vec<Rank>, Refusal> {
        let mut first = [0; MOST_TASKS];
        for slot in &mut first[..rows.len()] {
            *slot = self.number(b"release=", 0, 1_000_000)?;
        }
        let rank = |&index: &usize| {
            let Row { task, period, worst: most, best: least, .. } = rows[index];
            Rank { task, period, least, most, next: first[index], jobs: VecDeque::new() }
        };
        Ok(order.iter().map(rank).collect())
    }

    /// The lengths, each of the job that is released next.
    fn lengths(&mut self, ranks: &[Rank]) -> Result<Vec<u64>, Refusal> {
        let count = self.number(b"lengths=", 0, 2_048)?;
        let mut next: Vec<u64> = ranks.iter().map(|rank| rank.next).collect();
        let mut lengths = Vec::with_capacity(count as usize);
        for _ in 0..count {
            // Of several that are least it is the first, which is the highest rank.
            let at = (0..ranks.len()).min_by_key(|&at| next[at]).unwrap_or(0);
            lengths.push(self.number(b"length=", ranks[at].least, ranks[at].most)?);
            next[at] += ranks[at].period;
        }
        Ok(lengths)
    }
}

/// The lines of the jobs that finish within the ticks; from one release to the next the processor is
/// given out in one go.
fn run(ranks: &mut [Rank], lengths: &[u64], ticks: u64) -> Vec<u8> {
    let (mut text, mut lengths, mut now) = (Vec::new(), lengths.iter(), 0);
    while now < ticks {
        for rank in ranks.iter_mut().filter(|rank| rank.next == now) {
            rank.jobs.push_back((now, *lengths.next().unwrap_or(&rank.most)));
            rank.next += rank.period;
        }
        let end = ranks.iter().fold(ticks, |end, rank| end.min(rank.next));
        let Some(rank) = ranks.iter_mut().find(|rank| !rank.jobs.is_empty()) else {
            now = end;
            continue;
        };
        let (release, left) = &mut rank.jobs[0];
        let had = (*left).min(end - now);
        now += had;
        *left -= had;
        if *left == 0 {
            push_line(&mut text, b"task=", rank.task);
            push_line(&mut text, b"release=", *release);
            push_line(&mut text, b"finish=", now);
            rank.jobs.pop_front();
        }
    }
    text
}

fn watched(text: &[u8]) -> Result<Vec<u8>, Refusal> {
    let mut reader = Reader { most_hold: 0, ..Reader::new(text) };
    let table = reader.table()?;
    let order = reader.ranks(&table.rows)?;
    let mut ranks = reader.releases(&table.rows, &order)?;
    let ticks = reader.number(b"ticks=", 1, 1_000_000)?;
    let lengths = reader.lengths(&ranks)?;
    reader.end()?;
    // For its refusal of a late task.
    plan_text::<JOB_AFTER_JOB>(&table, &order)?;
    Ok(run(&mut ranks, &lengths, ticks))
}

pub fn watch(text: &[u8], buffer: &mut [u8]) -> Answer {
    deliver(watched(text), buffer)
}
