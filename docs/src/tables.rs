//! Random tables of tasks: several families of periods, loads up to the whole processor, switches
//! and holds of many kinds, deadlines from below the period to far past it, many just at a row's
//! latest response or one beside it, betas that stand exactly on a margin of 0 or one beside it, and
//! curves that pass close by a row's earliest response and jitter.

use crate::dice::Dice;
use crate::model::{self, Figures, Point, Row, Table};
use crate::model::{MOST_ALLOW, MOST_DELAY, MOST_POINTS};

const MOST_TICKS: u64 = 1_000_000;
const MOST_BETA: u64 = 200_000_000_000;
const MOST_SWITCH: u64 = 1_000;
const PRIMES: [u64; 24] =
    [5, 7, 11, 13, 17, 19, 23, 29, 31, 37, 41, 43, 47, 53, 59, 61, 67, 71, 73, 79, 83, 89, 97, 101];

#[derive(Clone, Copy, Debug, PartialEq)]
pub enum Family {
    /// A few ticks.
    Small,
    /// Each a power of two times one base.
    Harmonic,
    /// Primes.
    Coprime,
    /// One tick apart, so that releases drift past each other.
    Drifting,
    /// Close to the largest period.
    Huge,
    /// A short period among long ones.
    Wide,
    /// Short ones, and long ones whose responses reach past releases of the short, so that a task
    /// may gain by another that goes above it.
    Crossing,
}

use Family::*;

pub const FAMILIES: [Family; 7] = [Small, Harmonic, Coprime, Drifting, Huge, Wide, Crossing];

/// The families whose boards run through many periods in a few thousand ticks.
pub const SHORT_FAMILIES: [Family; 5] = [Small, Harmonic, Coprime, Drifting, Crossing];

/// How often a table of the crossing family is drawn until some task gains.
const CROSSING_DRAWS: usize = 20;

/// How often a curve is drawn until a row is stable by it.
const CURVE_DRAWS: usize = 10;

/// How often an order is drawn until no task in it is late whatever its deadline.
const ORDER_DRAWS: usize = 4;

/// Tables with more tasks than this have sets of them by the thousand, each to be tried. They have no
/// busy intervals of thousands of jobs, and so no deadlines where their load is above this, in parts
/// of a hundred.
const MANY_TASKS: usize = 6;
const MOST_LOAD: u64 = 95;

/// Periods of a family, the short ones longer by `more` ticks so that the switches find room.
fn periods(dice: &mut Dice, family: Family, count: usize, more: u64) -> Vec<u64> {
    let base = match family {
        Drifting => dice.between(20, 200),
        Wide => dice.any_size(10_000),
        Crossing => dice.between(10, 60),
        _ => dice.between(3, 30),
    } + more;
    let mut period = |index: u64| match family {
        Small => dice.between(1, 8 + 4 * count as u64) + more,
        Harmonic => base << dice.below(6),
        Coprime => dice.pick(&PRIMES) + more,
        Drifting => base + index,
        Huge => MOST_TICKS - dice.any_size(300_000) + 1,
        Wide => base * dice.any_size(100),
        Crossing if 2 * index < count as u64 => dice.between(base, 2 * base),
        Crossing => dice.between(8 * base, 20 * base),
    };
    (0..count as u64).map(&mut period).map(|period| period.min(MOST_TICKS)).collect()
}

/// Worst times that with their switches share a load of the processor, in thousandths, at random;
/// where a share is less than the switch, a worst time is 1 and the load is larger.
fn worsts(dice: &mut Dice, switch: u64, periods: &[u64]) -> Vec<u64> {
    let load = dice.pick(&[200, 500, 600, 700, 800, 900, 990, 1_000]);
    let shares: Vec<u64> = periods.iter().map(|_| dice.between(1, 100)).collect();
    let whole = 1_000 * shares.iter().sum::<u64>();
    let worst = |(period, share): (&u64, &u64)| {
        (period * share * load / whole).saturating_sub(switch).clamp(1, period - switch)
    };
    periods.iter().zip(&shares).map(worst).collect()
}

fn best(dice: &mut Dice, worst: u64) -> u64 {
    match dice.below(4) {
        0 => worst,
        1 => 1,
        2 => dice.between(worst - worst / 4, worst),
        _ => dice.between(1, worst),
    }
}

fn alpha(dice: &mut Dice) -> u64 {
    match dice.below(4) {
        0 => 1_000,
        1 => dice.between(1_000, 100_000),
        _ => dice.between(1_000, 4_000),
    }
}

/// Distinct numbers over the whole range, both ends among them now and then.
fn task_numbers(dice: &mut Dice, count: usize) -> Vec<u64> {
    let mut numbers = Vec::new();
    while numbers.len() < count {
        let number = if dice.once_in(40) { dice.pick(&[1, 65_535]) } else { dice.any_size(65_535) };
        if !numbers.contains(&number) {
            numbers.push(number);
        }
    }
    numbers
}

/// A hold of some kind that the worst time allows.
fn hold(dice: &mut Dice, worst: u64) -> u64 {
    match dice.below(8) {
        0 => 0,
        1 => 1,
        2 => worst.min(2),
        3 => worst,
        4 => worst - 1,
        5 => dice.between(0, worst),
        _ => dice.any_size(worst.min(8)),
    }
}

/// Holds of a table: in one row only, small in all, the whole of each job, or mixed.
fn set_holds(dice: &mut Dice, rows: &mut [Row]) {
    let (kind, only) = (dice.below(6), dice.below(rows.len()));
    for (index, row) in rows.iter_mut().enumerate() {
        row.hold = match kind {
            0 if index != only => 0,
            1 => dice.between(0, 2).min(row.worst),
            2 => row.worst,
            _ => hold(dice, row.worst),
        };
    }
}

/// The beta at which the margin by the line of a row between `above` and `below` is 0; none if it is
/// late there.
pub fn boundary(switch: u64, row: &Row, above: &[&Row], below: &[&Row]) -> Option<u64> {
    let free = Row { beta: 0, curve: Vec::new(), ..*row };
    model::figures(switch, &free, above, below).map(|figures| figures.margin.unsigned_abs())
}

/// The boundary itself most of the time, else a little above it.
fn at_least(dice: &mut Dice, boundary: Option<u64>) -> u64 {
    let Some(boundary) = boundary else {
        return dice.any_size(MOST_BETA);
    };
    let beta = match dice.below(8) {
        0 => boundary + 1,
        1 => boundary + dice.any_size(10_000),
        2 => boundary + dice.any_size(MOST_BETA),
        _ => boundary,
    };
    beta.min(MOST_BETA)
}

/// An order, three times in four that of the periods.
fn some_order(dice: &mut Dice, table: &Table) -> Vec<usize> {
    let mut order: Vec<usize> = (0..table.rows.len()).collect();
    dice.shuffle(&mut order);
    if !dice.once_in(4) {
        order.sort_by_key(|&index| table.rows[index].period);
    }
    order
}

/// Betas at the boundaries of an order, which is then stable unless a task in it is late.
fn set_betas_by_order(dice: &mut Dice, table: &mut Table, order: &[usize]) {
    let copies = table.rows.clone();
    let ranked: Vec<&Row> = order.iter().map(|&index| &copies[index]).collect();
    for (rank, &index) in order.iter().enumerate() {
        let (above, below) = (&ranked[..rank], &ranked[rank + 1..]);
        let boundary = boundary(table.switch, ranked[rank], above, below);
        table.rows[index].beta = at_least(dice, boundary);
    }
}

/// The boundary of a row below some set of the other rows, the rest of them below it.
pub fn boundary_at_random(dice: &mut Dice, table: &Table, index: usize) -> Option<u64> {
    let (set, rows) = (dice.next(), &table.rows);
    let others = (0..rows.len()).filter(|&other| other != index);
    let (above, below): (Vec<usize>, Vec<usize>) = others.partition(|other| set >> other & 1 == 1);
    let named = |set: Vec<usize>| set.into_iter().map(|other| &rows[other]).collect::<Vec<_>>();
    boundary(table.switch, &rows[index], &named(above), &named(below))
}

/// Each beta at the boundary below some set of the other rows.
fn set_betas_by_sets(dice: &mut Dice, table: &mut Table) {
    let others = table.clone();
    for (index, row) in table.rows.iter_mut().enumerate() {
        let boundary = boundary_at_random(dice, &others, index);
        row.beta = at_least(dice, boundary);
    }
}

// ---- Curves -----------------------------------------------------------------------------

/// The points in the sequence of their delays, as many as a row may have: where two have one delay
/// the later is left out, and no allow is above the one before.
fn sound(mut points: Vec<Point>) -> Vec<Point> {
    points.sort_by_key(|point| point.delay);
    points.dedup_by_key(|point| point.delay);
    points.truncate(MOST_POINTS);
    let mut most = MOST_ALLOW;
    for point in &mut points {
        point.delay = point.delay.min(MOST_DELAY);
        point.allow = point.allow.min(most);
        most = point.allow;
    }
    points.dedup_by_key(|point| point.delay);
    points
}

/// So many points before the first of a curve and after its last, each a step away.
fn extended(dice: &mut Dice, mut points: Vec<Point>, before: usize, after: usize) -> Vec<Point> {
    let step = |dice: &mut Dice| dice.pick(&[1, 1, 2, 7, 100, 100_000]) * dice.between(1, 3);
    for _ in 0..before {
        let Point { delay, allow } = points[0];
        let (by, more) = (step(dice), dice.pick(&[0, 1]) * step(dice));
        if delay >= by {
            points.insert(0, Point { delay: delay - by, allow: (allow + more).min(MOST_ALLOW) });
        }
    }
    for _ in 0..after {
        let Point { delay, allow } = points[points.len() - 1];
        let (by, less) = (step(dice), dice.pick(&[0, 1]) * step(dice));
        if delay + by <= MOST_DELAY {
            points.push(Point { delay: delay + by, allow: allow.saturating_sub(less) });
        }
    }
    points
}

/// Two points, one before the earliest response and one at it or after it, whose line passes by the
/// jitter there, exactly or within a tick.
fn two_around(dice: &mut Dice, earliest: u64, jitter: u64) -> Vec<Point> {
    let near = |dice: &mut Dice| dice.pick(&[1, 2, 3, 7, 10, 30, 1_000]);
    let (before, after) = (near(dice).min(earliest), dice.pick(&[0, 1, 1]) * near(dice));
    let most = dice.pick(&[1, 5, 20, 1_000_000]);
    let less = dice.between(0, jitter.min(most));
    let more = if after == 0 { dice.any_size(50) } else { less * before / after };
    let beside = (jitter + more + dice.between(0, 2)).saturating_sub(1);
    let right = if after == 0 { jitter } else { jitter - less };
    vec![
        Point { delay: earliest - before, allow: beside.max(right) },
        Point { delay: earliest + after, allow: right },
    ]
}

/// A curve close to what a row has: a point just there, the first delay past it, a line by it, or
/// the last delay just before it; one time in four it permits a tick less.
fn curve_near(dice: &mut Dice, earliest: u64, jitter: u64) -> Vec<Point> {
    let here = |delay: u64| vec![Point { delay, allow: jitter }];
    let (some, others) = (dice.below(4), dice.below(4));
    let mut points = match dice.below(8) {
        0 => extended(dice, here(earliest), some, others),
        1 => {
            let past = earliest + dice.any_size(1_000);
            extended(dice, here(past), 0, others)
        }
        2 => {
            let last = here(earliest - dice.between(0, 1));
            extended(dice, last, some, 0)
        }
        3 => extended(dice, here(earliest), MOST_POINTS - 1, 0),
        _ => {
            let two = two_around(dice, earliest, jitter);
            extended(dice, two, some, others)
        }
    };
    if dice.once_in(4) {
        points.iter_mut().for_each(|point| point.allow = point.allow.saturating_sub(1));
    }
    sound(points)
}

/// The same, drawn until the row is stable by it; a point just there if that takes too long.
fn curve_that_fits(dice: &mut Dice, earliest: u64, jitter: u64) -> Vec<Point> {
    let mut drawn = (0..CURVE_DRAWS).map(|_| curve_near(dice, earliest, jitter));
    let fits = |curve: &Vec<Point>| model::margin_by_curve(curve, earliest, jitter) >= 0;
    drawn.find(fits).unwrap_or_else(|| vec![Point { delay: earliest, allow: jitter }])
}

/// A curve at the limits, or any.
pub fn any_curve(dice: &mut Dice) -> Vec<Point> {
    let point = |delay, allow| Point { delay, allow };
    let (delay, allow) = (dice.any_size(MOST_DELAY), dice.any_size(MOST_ALLOW));
    match dice.below(10) {
        0 => vec![point(0, 0)],
        1 => vec![point(0, MOST_ALLOW)],
        2 => vec![point(MOST_DELAY, 0)],
        3 => vec![point(MOST_DELAY, MOST_ALLOW)],
        4 => vec![point(0, MOST_ALLOW), point(MOST_DELAY, 0)],
        5 => vec![point(0, allow), point(MOST_DELAY, allow)],
        // As many as there can be, a tick apart.
        6 => {
            let first = delay.min(MOST_DELAY - MOST_POINTS as u64);
            let at = |index: u64| point(first + index, allow.saturating_sub(index * index));
            (0..MOST_POINTS as u64).map(at).collect()
        }
        _ => {
            let points = dice.between(1, MOST_POINTS as u64);
            let any = |_| point(dice.any_size(MOST_DELAY), dice.any_size(MOST_ALLOW));
            let mut points: Vec<Point> = (0..points).map(any).collect();
            points.sort_by_key(|point| std::cmp::Reverse(point.allow));
            let mut delays: Vec<u64> = points.iter().map(|point| point.delay).collect();
            delays.sort();
            points.iter_mut().zip(delays).for_each(|(point, delay)| point.delay = delay);
            sound(points)
        }
    }
}

/// A curve that permits everything.
fn loose_curve(dice: &mut Dice) -> Vec<Point> {
    let last = Point { delay: MOST_DELAY, allow: MOST_ALLOW };
    let others = dice.below(MOST_POINTS);
    let points = (0..others).map(|_| Point { delay: dice.below(999_999) as u64, ..last });
    sound(points.chain([last]).collect())
}

/// The figures of a row in an order, all others above it or below.
fn figures_in(table: &Table, order: &[usize], rank: usize) -> Option<Figures> {
    let ranked: Vec<&Row> = order.iter().map(|&index| &table.rows[index]).collect();
    model::figures(table.switch, ranked[rank], &ranked[..rank], &ranked[rank + 1..])
}

/// Gives a row a curve near to what it has in an order, one by which it is stable there if the curve
/// is to fit; a late one gets any.
pub fn set_a_curve(dice: &mut Dice, table: &mut Table, order: &[usize], rank: usize, fits: bool) {
    table.rows[order[rank]].curve = match figures_in(table, order, rank) {
        Some(Figures { best, jitter, .. }) if fits => curve_that_fits(dice, best, jitter),
        Some(Figures { best, jitter, .. }) => curve_near(dice, best, jitter),
        None => any_curve(dice),
    };
}

/// Curves in one row, in some or in all, near to what the rows have in an order, which three times
/// in four is stable by them; or, where betas are no limit, such that these are none either.
fn set_curves(dice: &mut Dice, table: &mut Table, order: &[usize], loose: bool) {
    let (kind, only) = (dice.below(4), dice.below(table.rows.len()));
    let fits = !dice.once_in(4);
    for rank in 0..order.len() {
        let index = order[rank];
        let chosen = match kind {
            0 => index == only,
            1 => true,
            _ => dice.once_in(2),
        };
        if chosen && loose {
            table.rows[index].curve = loose_curve(dice);
        } else if chosen && !fits && dice.once_in(10) {
            table.rows[index].curve = any_curve(dice);
        } else if chosen {
            set_a_curve(dice, table, order, rank, fits);
        }
    }
}

/// A table of document 01 with a curve in every row, for `bench` alone; in three of four each row is
/// stable by it in one order.
#[allow(dead_code)]
pub fn curved(dice: &mut Dice, family: Family, count: usize) -> Table {
    let mut table = drawn(dice, family, count, NO_SWITCH);
    let (order, fits) = (some_order(dice, &table), !dice.once_in(4));
    (0..count).for_each(|rank| set_a_curve(dice, &mut table, &order, rank, fits));
    table
}

// ---- Deadlines --------------------------------------------------------------------------

/// The processor's load by so many parts of it.
const PARTS: u64 = 1_000_000_000_000;

fn load_of(switch: u64, row: &Row) -> u64 {
    ((row.worst + switch) * PARTS).div_ceil(row.period)
}

fn load(table: &Table) -> u64 {
    table.rows.iter().map(|row| load_of(table.switch, row)).sum()
}

/// A longer job of some row, so that the load comes as close to 1 as that row's ticks allow, and
/// busy intervals get long; a row that has no room is left as it is.
fn fill_the_load(dice: &mut Dice, table: &mut Table) {
    let (index, switch, all) = (dice.below(table.rows.len()), table.switch, load(table));
    let row = &mut table.rows[index];
    let free = PARTS.saturating_sub(all - load_of(switch, row));
    let cost = (u128::from(free) * u128::from(row.period) / u128::from(PARTS)) as u64;
    if cost > row.worst + switch {
        row.worst = cost - switch;
        row.best = best(dice, row.worst);
    }
}

/// An order, as often that of the periods or its reverse, in which short periods overrun, as any.
fn overrunning_order(dice: &mut Dice, table: &Table) -> Vec<usize> {
    let mut order: Vec<usize> = (0..table.rows.len()).collect();
    dice.shuffle(&mut order);
    match dice.below(3) {
        0 => order.sort_by_key(|&index| table.rows[index].period),
        1 => order.sort_by_key(|&index| std::cmp::Reverse(table.rows[index].period)),
        _ => {}
    }
    order
}

/// The boundary of a row in an order.
fn boundary_in(table: &Table, order: &[usize], rank: usize) -> Option<u64> {
    let ranked: Vec<&Row> = order.iter().map(|&index| &table.rows[index]).collect();
    boundary(table.switch, ranked[rank], &ranked[..rank], &ranked[rank + 1..])
}

/// The latest response of a row in an order whatever its deadline; none if it has none up to the
/// longest.
pub fn latest_in(table: &Table, order: &[usize], rank: usize) -> Option<u64> {
    let ranked: Vec<&Row> = order.iter().map(|&index| &table.rows[index]).collect();
    let (above, below) = (&ranked[..rank], &ranked[rank + 1..]);
    model::latest(table.switch, &Row { deadline: MOST_TICKS, ..ranked[rank].clone() }, above, below)
}

/// A deadline for a latest response: the response itself most of the time, or past it.
fn deadline_past(dice: &mut Dice, row: &Row, latest: u64) -> u64 {
    let more = match dice.below(8) {
        0 => 1,
        1 => dice.any_size(1_000),
        2 => row.period.saturating_sub(latest),
        3 => row.period * dice.between(1, 4),
        4 => dice.any_size(MOST_TICKS),
        _ => 0,
    };
    (latest + more).min(MOST_TICKS)
}

/// Deadlines that the rows have no trouble with in an order, but that one row may have one tick too
/// few; a row that is late there whatever its deadline has any.
fn set_deadlines_by_order(dice: &mut Dice, table: &mut Table, order: &[usize]) {
    let (short, only) = (dice.once_in(4), dice.below(order.len()));
    for (rank, &index) in order.iter().enumerate() {
        let latest = latest_in(table, order, rank);
        let row = &table.rows[index];
        table.rows[index].deadline = match latest {
            Some(latest) if short && rank == only => latest.max(2) - 1,
            Some(latest) => deadline_past(dice, row, latest),
            None if dice.once_in(2) => row.period,
            None => dice.any_size(MOST_TICKS),
        };
    }
}

/// A deadline from 1 to the period: seldom below the worst time, where the row is late everywhere.
fn short_deadline(dice: &mut Dice, row: &Row) -> u64 {
    match dice.below(12) {
        0 => dice.between(1, row.worst),
        1 => 1,
        2 => row.worst,
        3..=5 => row.period - dice.any_size(row.period.min(10)) + 1,
        _ => dice.between(row.worst, row.period),
    }
}

/// Deadlines of a table's rows: all far off, some periods, below the period in some rows, mixed, or
/// near to what the rows need in an order.
fn set_deadlines(dice: &mut Dice, table: &mut Table, order: &[usize]) {
    let (kind, far) = (dice.below(12), dice.pick(&[MOST_TICKS, MOST_TICKS - 1]));
    for row in &mut table.rows {
        row.deadline = match kind {
            0 => far,
            1 => row.period * dice.between(1, 5),
            2 if dice.once_in(2) => row.period,
            2 => short_deadline(dice, row),
            3 => match dice.below(4) {
                0 => row.period,
                1 => short_deadline(dice, row),
                2 => dice.any_size(MOST_TICKS),
                _ => row.period * dice.between(1, 5),
            },
            _ => row.deadline,
        }
        .min(MOST_TICKS);
    }
    if kind > 3 {
        set_deadlines_by_order(dice, table, order);
    }
}

/// One of a few orders in which no task is late whatever its deadline, if there is one.
fn order_in_time(dice: &mut Dice, table: &Table) -> Vec<usize> {
    let mut order = overrunning_order(dice, table);
    let late =
        |order: &[usize]| (0..order.len()).any(|rank| latest_in(table, order, rank).is_none());
    for _ in 0..ORDER_DRAWS {
        if !late(&order) {
            break;
        }
        order = overrunning_order(dice, table);
    }
    order
}

/// A task that may go lowest, past its period, and should not: by period it is above one that gains
/// by it and is just stable so. It is the first of the table, where the rule tries it first. The answer
/// is the order by period; none where no task gains.
fn set_a_trap(table: &mut Table) -> Option<Vec<usize>> {
    let mut order: Vec<usize> = (0..table.rows.len()).collect();
    order.sort_by_key(|&index| table.rows[index].period);
    let (_, gone) = gain_in(table, &order)?;
    table.rows.swap(0, order[gone]);
    let other = order.iter().position(|&index| index == 0)?;
    order.swap(gone, other);
    let last = order.len() - 1;
    let lowest = [&order[..gone], &order[gone + 1..], &[0]].concat();
    let latest = latest_in(table, &lowest, last)?;
    let before = boundary_in(table, &order, gone);
    table.rows[0].deadline = latest.max(table.rows[0].period);
    let beta = before.max(boundary_in(table, &lowest, last))?;
    for rank in 0..order.len() {
        let boundary = boundary_in(table, &order, rank).unwrap_or(MOST_BETA);
        table.rows[order[rank]].beta = if rank == gone { beta } else { boundary }.min(MOST_BETA);
    }
    Some(order)
}

/// Gives a table deadlines and, where betas are a limit, new betas for them; the answer is an order
/// in which most of its tasks are in time.
fn put_deadlines(dice: &mut Dice, table: &mut Table, loose: bool) -> Vec<usize> {
    if !loose && dice.once_in(4) {
        if let Some(order) = set_a_trap(table) {
            return order;
        }
    }
    if table.rows.len() <= MANY_TASKS {
        (0..dice.below(3)).for_each(|_| fill_the_load(dice, table));
    } else if load(table) > PARTS / 100 * MOST_LOAD {
        return some_order(dice, table);
    }
    let order = order_in_time(dice, table);
    set_deadlines(dice, table, &order);
    if !loose && dice.once_in(8) {
        set_betas(dice, table);
    } else if !loose {
        set_betas_by_order(dice, table, &order);
        lower_a_beta(dice, table);
    }
    order
}

// ---- Whole tables -----------------------------------------------------------------------

/// A table's switch, and by how many ticks its short periods are longer so that there is room for
/// the switches of all its rows.
#[derive(Clone, Copy)]
struct Switch {
    ticks: u64,
    more: u64,
}

const NO_SWITCH: Switch = Switch { ticks: 0, more: 0 };

/// A switch of few ticks, of some, or the most that there can be.
fn any_switch(dice: &mut Dice, count: usize) -> Switch {
    let ticks = match dice.below(5) {
        0 | 1 => dice.between(1, 5),
        2 => dice.any_size(100),
        3 => dice.any_size(MOST_SWITCH),
        _ => dice.pick(&[MOST_SWITCH - 1, MOST_SWITCH]),
    };
    Switch { ticks, more: ticks * count as u64 * dice.pick(&[1, 2, 2, 4]) }
}

/// A table whose betas are no limit, and without holds.
fn loose_table(dice: &mut Dice, family: Family, count: usize, switch: Switch) -> Table {
    let mut periods = periods(dice, family, count, switch.more);
    dice.shuffle(&mut periods);
    let worsts = worsts(dice, switch.ticks, &periods);
    let tasks = task_numbers(dice, count);
    let columns = tasks.into_iter().zip(periods).zip(worsts);
    let row = |((task, period), worst)| {
        let (best, alpha) = (best(dice, worst), alpha(dice));
        Row { task, alpha, ..row(period, worst, best, 0) }
    };
    Table { board: 1, switch: switch.ticks, rows: columns.map(row).collect() }
}

/// Whether, by period, some task has a larger margin than without one of the tasks above it.
fn some_task_gains(table: &Table) -> bool {
    let mut order: Vec<usize> = (0..table.rows.len()).collect();
    order.sort_by_key(|&index| table.rows[index].period);
    gain_in(table, &order).is_some()
}

/// The first rank of an order whose task has a larger margin than without that of a rank above it, and
/// the first such rank above it.
fn gain_in(table: &Table, order: &[usize]) -> Option<(usize, usize)> {
    let ranked: Vec<&Row> = order.iter().map(|&index| &table.rows[index]).collect();
    let gains = |rank: usize, gone: usize| {
        let fewer = [&ranked[..gone], &ranked[gone + 1..rank]].concat();
        let below = &ranked[rank + 1..];
        let cost = boundary(table.switch, ranked[rank], &ranked[..rank], below);
        cost.is_some_and(|cost| {
            let without = boundary(table.switch, ranked[rank], &fewer, below);
            without.is_some_and(|without| cost < without)
        })
    };
    let pairs = (1..ranked.len()).flat_map(|rank| (0..rank).map(move |gone| (rank, gone)));
    pairs.into_iter().find(|&(rank, gone)| gains(rank, gone))
}

fn set_betas(dice: &mut Dice, table: &mut Table) {
    match dice.below(8) {
        0 => table.rows.iter_mut().for_each(|row| row.beta = dice.any_size(MOST_BETA)),
        1 | 2 => set_betas_by_sets(dice, table),
        _ => {
            let order = some_order(dice, table);
            set_betas_by_order(dice, table, &order);
        }
    }
    lower_a_beta(dice, table);
}

/// One time in four a beta that is one beside a boundary, often too few for any order.
fn lower_a_beta(dice: &mut Dice, table: &mut Table) {
    if dice.once_in(4) {
        let index = dice.below(table.rows.len());
        let row = &mut table.rows[index];
        row.beta = row.beta.saturating_sub(1);
    }
}

fn drawn(dice: &mut Dice, family: Family, count: usize, switch: Switch) -> Table {
    let mut table = loose_table(dice, family, count, switch);
    if family == Crossing {
        let mut draws = 1;
        while draws < CROSSING_DRAWS && !some_task_gains(&table) {
            table = loose_table(dice, family, count, switch);
            draws += 1;
        }
    }
    table
}

/// A job that takes the whole period with its switch.
fn fill_a_period(dice: &mut Dice, table: &mut Table) {
    let index = dice.below(table.rows.len());
    let row = &mut table.rows[index];
    row.worst = row.period - table.switch;
    row.best = best(dice, row.worst);
}

/// A table of document 01, without holds and with a switch of 0; with `loose` betas an order is
/// stable as soon as no task in it is late.
pub fn simple(dice: &mut Dice, family: Family, count: usize, loose: bool) -> Table {
    let mut table = drawn(dice, family, count, NO_SWITCH);
    if !loose {
        set_betas(dice, &mut table);
    }
    table
}

/// The same with holds in three tables of four.
pub fn holding(dice: &mut Dice, family: Family, count: usize, loose: bool) -> Table {
    if dice.once_in(4) {
        return simple(dice, family, count, loose);
    }
    let mut table = drawn(dice, family, count, NO_SWITCH);
    set_holds(dice, &mut table.rows);
    if !loose {
        set_betas(dice, &mut table);
    }
    table
}

/// A table with a switch, and holds in three of four; now and then a job fills its period.
pub fn switching(dice: &mut Dice, family: Family, count: usize, loose: bool) -> Table {
    let switch = any_switch(dice, count);
    let mut table = drawn(dice, family, count, switch);
    if dice.once_in(if count == 1 { 4 } else { 40 }) {
        fill_a_period(dice, &mut table);
    }
    if !dice.once_in(4) {
        set_holds(dice, &mut table.rows);
    }
    if !loose {
        set_betas(dice, &mut table);
    }
    table
}

/// A table of document 01 with deadlines, for `bench` alone.
#[allow(dead_code)]
pub fn deadlined(dice: &mut Dice, family: Family, count: usize) -> Table {
    let mut table = drawn(dice, family, count, NO_SWITCH);
    put_deadlines(dice, &mut table, false);
    table
}

/// A few tasks under a switch, one of them with hundreds of jobs in the time of another's.
pub fn crowded(dice: &mut Dice, count: usize) -> Table {
    let switch = dice.pick(&[1, 2, 10, 100, MOST_SWITCH - 1, MOST_SWITCH]);
    let mut table = loose_table(dice, Huge, count, NO_SWITCH);
    table.switch = switch;
    table.rows.iter_mut().for_each(|row| row.worst = row.worst.min(MOST_TICKS / 8));
    let index = dice.below(count);
    let row = &mut table.rows[index];
    row.worst = dice.between(1, 3);
    row.period = (row.worst + switch) * dice.between(2, 4) / 2 + dice.between(1, 3);
    for row in &mut table.rows {
        row.deadline = row.period;
        row.best = best(dice, row.worst);
    }
    set_betas(dice, &mut table);
    finish(dice, &mut table, false);
    table
}

/// A task that has all of the processor but a tick of each period, and below it one whose stretch
/// begins a busy interval of it that ends at the millionth tick or beside it; its response is never
/// past its deadline. With no job above, job q is done at (q + 1) × (period − 1) and what blocks, which is
/// the next release where q + 1 is just what blocks.
fn million(dice: &mut Dice, count: usize) -> Table {
    let (end, switch) = (MOST_TICKS + dice.between(0, 3) - 1, dice.between(0, 1));
    let mut periods: Vec<u64> = (4..2_000).filter(|&period| end.is_multiple_of(period)).collect();
    dice.shuffle(&mut periods);
    let period = periods.first().copied().unwrap_or(end);
    let blocked = end / period;
    let worst = period - 1 - switch;
    let mut rows = vec![
        row(period, worst, dice.between(1, worst), 0),
        row(MOST_TICKS, blocked + 1, 1, (blocked + 1).min(MOST_TICKS - switch)),
    ];
    rows.extend((2..count).map(|_| row(MOST_TICKS, 1, 1, dice.between(0, 1))));
    for (row, task) in rows.iter_mut().zip(task_numbers(dice, count)) {
        row.task = task;
        row.deadline = dice.pick(&[MOST_TICKS, MOST_TICKS - 1]);
    }
    dice.shuffle(&mut rows);
    Table { board: 1, switch, rows }
}

/// A row that no line troubles.
fn row(period: u64, worst: u64, best: u64, hold: u64) -> Row {
    Row {
        task: 1,
        period,
        deadline: period,
        worst,
        best,
        alpha: 1_000,
        beta: MOST_BETA,
        hold,
        curve: Vec::new(),
    }
}

/// Deadlines other than the periods in half of the tables, and curves in half.
fn finish(dice: &mut Dice, table: &mut Table, loose: bool) {
    let order = match dice.once_in(2) {
        true => put_deadlines(dice, table, loose),
        false => some_order(dice, table),
    };
    if dice.once_in(2) {
        set_curves(dice, table, &order, loose);
    }
}

/// A table of any board, with a switch in five of eight, with deadlines in half and with curves in
/// half; of those with few tasks one in forty has a busy interval of a million ticks or beside.
pub fn any(dice: &mut Dice, family: Family, count: usize, loose: bool) -> Table {
    if (2..=4).contains(&count) && dice.once_in(40) {
        return million(dice, count);
    }
    let draw = if dice.below(8) < 3 { holding } else { switching };
    let board = dice.any_size(65_535);
    let mut table = Table { board, ..draw(dice, family, count, loose) };
    finish(dice, &mut table, loose);
    table
}

/// The table as text.
pub fn text(Table { board, switch, rows }: &Table) -> Vec<u8> {
    let mut text = format!("board={board}\ntasks={}\nswitch={switch}\n", rows.len());
    for Row { task, period, deadline, worst, best, alpha, beta, hold, curve } in rows {
        text += &format!("task={task}\nperiod={period}\ndeadline={deadline}\nworst={worst}\n");
        text += &format!("best={best}\nalpha={alpha}\nbeta={beta}\nhold={hold}\n");
        text += &format!("points={}\n", curve.len());
        for Point { delay, allow } in curve {
            text += &format!("delay={delay}\nallow={allow}\n");
        }
    }
    text.into_bytes()
}
