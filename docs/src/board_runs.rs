//! Plans of the library on boards: that no job passes a line, and how close jobs came.

use crate::boards::{self, Choice, Keeps, Lengths, Releases, Seen, Task};
use crate::calls::{self, AMPLE};
use crate::dice::Dice;
use crate::model::{self, Row, Table, MOST_TASKS};
use crate::{library, progress, tables};
use std::time::Instant;

const MOST_TICKS: u64 = 6_000;
/// A table with a longer period or a longer busy interval is left out, since a run of it takes too
/// long; so is a run that has to be longer.
const LONGEST_PERIOD: u64 = 10_000;
const LONGEST_RUN: u64 = 40_000;
/// So many plans have a switch in some of them, and a task that overruns its period in others.
const MANY_PLANS: u64 = 50;

/// How many tasks came how close to one of their lines, each over all its runs.
#[derive(Default)]
struct Gaps {
    exactly: u64,
    one_tick: u64,
    more: u64,
    widest: u64,
}

impl Gaps {
    fn add(&mut self, gap: u64) {
        match gap {
            0 => self.exactly += 1,
            1 => self.one_tick += 1,
            _ => self.more += 1,
        }
        self.widest = self.widest.max(gap);
    }

    fn print(&self, line: &str) {
        let Gaps { exactly, one_tick, more, widest } = self;
        print!("  {line}: {exactly} reached it exactly, {one_tick} came within 1 tick");
        println!(", {more} stayed farther off, {widest} ticks at most");
    }
}

/// A plan on a board: its tasks, and for each the ticks of the busy interval in which its responses
/// are longest.
struct Plan {
    tasks: Vec<Task>,
    busy: Vec<u64>,
}

/// A task that did not come as far as the rules allow.
struct Missed {
    what: &'static str,
    rank: usize,
    ticks: u64,
    table: String,
}

#[derive(Default)]
struct Report {
    runs: u64,
    switching: u64,
    holding: u64,
    /// Plans with a worst line past the period of its task, and those of them in which a job of such a
    /// task is held to its best line.
    overrunning: u64,
    settling: u64,
    total: Seen,
    to_worst: Gaps,
    to_best: Gaps,
    /// Of the tasks with a hold of 2 or more, whose `best` is the row's: to that line, and to the
    /// shortest response that the rules allow.
    to_best_holding: Gaps,
    to_shortest: Gaps,
    missed: Option<Missed>,
}

impl Report {
    /// Adds one plan's tasks, each with all that was seen of it.
    fn add(&mut self, text: &[u8], tasks: &[Task], all: &[Seen]) {
        self.holding += tasks.iter().any(|task| task.hold >= 2) as u64;
        let overruns = |(task, _): &(&Task, &Seen)| task.worst > task.period;
        self.overrunning += tasks.iter().zip(all).any(|task| overruns(&task)) as u64;
        let mut overrunning = tasks.iter().zip(all).filter(overruns);
        self.settling += overrunning.any(|(_, seen)| seen.settled > 0) as u64;
        for (rank, (task, seen)) in tasks.iter().zip(all).enumerate() {
            absorb(&mut self.total, seen);
            let gap = task.worst - seen.largest;
            self.to_worst.add(gap);
            self.note("worst line", rank, gap, text);
            let Some(smallest) = seen.smallest else {
                continue;
            };
            let gap = smallest.abs_diff(boards::shortest(tasks, rank));
            self.note("shortest response", rank, gap, text);
            self.to_best.add(smallest - task.best);
            // No stretch, or one for the whole job: the line itself is reached.
            if task.hold < 2 || task.hold >= task.best {
                self.note("best line", rank, smallest - task.best, text);
            }
            if task.hold >= 2 {
                self.to_best_holding.add(smallest - task.best);
                self.to_shortest.add(gap);
            }
        }
    }

    /// Remembers the first task that did not come as far as the rules allow.
    fn note(&mut self, what: &'static str, rank: usize, ticks: u64, text: &[u8]) {
        if ticks > 0 && self.missed.is_none() {
            let table = text.escape_ascii().to_string();
            self.missed = Some(Missed { what, rank: rank + 1, ticks, table });
        }
    }

    fn print(&self) {
        let Seen { jobs, at_worst, settled, at_best, kept, overran, pending, .. } = self.total;
        println!("  {jobs} jobs, none past its worst line, {at_worst} exactly on it");
        println!(
            "  {settled} jobs held to their best line, none before it, {at_best} exactly on it"
        );
        self.to_worst.print("worst line, by task");
        self.to_best.print("best line, by task");
        println!("  {} of the plans with a switch above 0", self.switching);
        let Report { overrunning, settling, .. } = self;
        print!(
            "  {overrunning} of the plans with a task that overruns its period, {settling} with "
        );
        print!(
            "jobs of such a task that are held to its best line; {overran} jobs finished after "
        );
        println!("the next release of their task, {pending} of a task unfinished at most");
        println!(
            "  {} of the plans with a hold of 2 or more, {kept} ticks kept from a higher rank",
            self.holding
        );
        self.to_best_holding.print("best line, by task with such a hold");
        self.to_shortest.print("shortest response that its stretches allow, by such a task");
    }

    /// That the runs tried what they should: each task came to its lines, and switches were paid.
    fn complete(&self, plans: u64) -> Result<(), String> {
        if let Some(Missed { what, rank, ticks, table }) = &self.missed {
            let by = format!("{what} of rank {rank}, by {ticks} ticks");
            return Err(format!("NOT REACHED: {by}, table:\n  \"{table}\"\n"));
        }
        if plans >= MANY_PLANS && self.switching == 0 {
            return Err(format!("NO SWITCH in {plans} plans\n"));
        }
        if plans >= MANY_PLANS && (self.settling == 0 || self.total.pending < 3) {
            return Err(format!("NO TASK OVERRAN its period as it should in {plans} plans\n"));
        }
        Ok(())
    }
}

fn absorb(total: &mut Seen, seen: &Seen) {
    total.jobs += seen.jobs;
    total.settled += seen.settled;
    total.at_worst += seen.at_worst;
    total.at_best += seen.at_best;
    total.kept += seen.kept;
    total.overran += seen.overran;
    total.pending = total.pending.max(seen.pending);
    total.largest = total.largest.max(seen.largest);
    total.smallest = [total.smallest, seen.smallest].into_iter().flatten().min();
}

/// The plan that the library writes for a table, with the lines as it wrote them; none if it refuses.
fn plan_of(text: &[u8], table: &Table) -> Option<Plan> {
    let mut buffer = [0; AMPLE];
    let answer = library::plan(text, &mut buffer);
    if answer.number != 0 {
        return None;
    }
    let ranks = calls::ranks_in(buffer.get(..answer.length as usize)?, &table.rows)?;
    let task = |rank: &calls::Rank| {
        let Row { period, deadline, worst, best: least, hold, .. } = table.rows[rank.index];
        let most = worst + table.switch;
        Task { period, deadline, least, most, hold, best: rank.best, worst: rank.worst }
    };
    let tasks = ranks.iter().map(task).collect();
    let order: Vec<usize> = ranks.iter().map(|rank| rank.index).collect();
    let busy = (0..order.len()).map(|rank| model::busy_ticks(table, &order, rank)).collect();
    Some(Plan { tasks, busy })
}

/// Every choice of first releases with every choice of lengths and, where something may hold, of
/// stretches; those made for a rank only with the lengths and stretches that they are made for.
fn choices(tasks: &[Task]) -> Vec<Choice> {
    use Lengths::{Alternating, Drifting, Least, Most, Random};
    let holding: Vec<usize> = (0..tasks.len()).filter(|&rank| tasks[rank].hold >= 2).collect();
    let some: &[Keeps] = match holding.as_slice() {
        [] => &[Keeps::Never],
        _ => &[Keeps::Never, Keeps::Always, Keeps::Random],
    };
    let mut choices = Vec::new();
    for &keeps in some {
        for releases in [Releases::Zero, Releases::Random, Releases::Drifting] {
            let lengths = [Most, Least, Alternating, Random, Drifting];
            choices.extend(lengths.map(|lengths| Choice { releases, lengths, keeps }));
        }
    }
    choices.extend((0..tasks.len()).map(|rank| Choice {
        releases: Releases::Aligned(rank),
        lengths: Least,
        keeps: Keeps::Ending(rank),
    }));
    choices.extend(holding.into_iter().map(|rank| Choice {
        releases: Releases::Behind(rank),
        lengths: Most,
        keeps: Keeps::Only(rank),
    }));
    choices
}

/// The ticks of a run: some periods, a busy interval of each task, and up to the job that is to be the
/// first of its task and the shortest.
fn ticks(plan: &Plan, first: &[u64], choice: Choice) -> u64 {
    let longest = plan.tasks.iter().map(|task| task.period).max().unwrap_or(0);
    let busy = plan.busy.iter().max().unwrap_or(&0) + 1;
    let some = (12 * longest).min(MOST_TICKS).max(4 * longest).max(busy);
    match choice.releases {
        Releases::Aligned(rank) => some.max(first[rank] + plan.tasks[rank].worst),
        _ => some,
    }
}

/// All runs of one plan; the error describes a broken line.
fn run_plan(dice: &mut Dice, report: &mut Report, text: &[u8], plan: &Plan) -> Result<(), String> {
    let tasks = &plan.tasks;
    let mut all = vec![Seen::default(); tasks.len()];
    for choice in choices(tasks) {
        let first = boards::first_releases(dice, choice.releases, tasks);
        let ticks = ticks(plan, &first, choice);
        if ticks > LONGEST_RUN {
            continue;
        }
        let seen = boards::run(dice, tasks, &first, choice, ticks).map_err(|violation| {
            let Choice { lengths, keeps, .. } = choice;
            let run = format!("first releases {first:?}, lengths {lengths:?}, kept {keeps:?}");
            format!("BROKEN LINE: {violation:?}, {run}, table:\n  \"{}\"\n", text.escape_ascii())
        })?;
        all.iter_mut().zip(&seen).for_each(|(total, seen)| absorb(total, seen));
        report.runs += 1;
    }
    report.add(text, tasks, &all);
    Ok(())
}

/// Runs boards for `count` plans of random tables.
pub fn run(dice: &mut Dice, count: u64) -> Result<(), String> {
    let (mut report, mut done, started) = (Report::default(), 0, Instant::now());
    while done < count {
        let (family, tasks) = (dice.pick(&tables::SHORT_FAMILIES), 1 + dice.below(MOST_TASKS));
        let loose = dice.once_in(2);
        let table = tables::any(dice, family, tasks, loose);
        if table.rows.iter().any(|row| row.period > LONGEST_PERIOD) {
            continue;
        }
        let text = tables::text(&table);
        let Some(plan) = plan_of(&text, &table) else {
            continue;
        };
        if plan.busy.iter().any(|&ticks| ticks >= LONGEST_RUN) {
            continue;
        }
        run_plan(dice, &mut report, &text, &plan)?;
        report.switching += (table.switch > 0) as u64;
        done += 1;
        progress("boards", done, count, started);
    }
    println!("{count} plans on boards, {} runs, no line broken", report.runs);
    report.print();
    report.complete(count)
}
