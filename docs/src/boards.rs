//! The board of document 01 with the stretches of request 2, the longer jobs of request 4 and the
//! deadlines of request 8, tick by tick. First releases, job lengths and stretches are chosen to bring
//! finishes as close as they can come to a plan's `worst` and `best` lines.

use crate::dice::Dice;
use std::collections::VecDeque;

/// A task of a plan; the list of them is in order of rank, the highest first.
#[derive(Clone, Copy, Debug, PartialEq)]
pub struct Task {
    pub period: u64,
    /// How long after the first releases above its jobs are held to `best`, from the table.
    pub deadline: u64,
    /// What a job may need, from the table: its best time, up to its worst and the switch.
    pub least: u64,
    pub most: u64,
    /// The ticks of its longest stretch, from the table.
    pub hold: u64,
    /// The responses that the plan writes.
    pub best: u64,
    pub worst: u64,
}

/// How the first releases are chosen.
#[derive(Clone, Copy, Debug)]
pub enum Releases {
    Zero,
    Random,
    /// One tick after another from the lowest rank up, so that each job is caught by all above.
    Drifting,
    /// The jobs above are next released just after the last tick that must fall by rank to the
    /// first job of this rank: the case in which a response is shortest.
    Aligned(usize),
    /// All jobs are released one tick after that of this rank, which may hold on to the processor:
    /// the case in which responses above it are longest.
    Behind(usize),
}

/// How long jobs last.
#[derive(Clone, Copy, Debug)]
pub enum Lengths {
    Most,
    Least,
    Alternating,
    /// Often one of the two ends or half-way between them.
    Random,
    /// From the least up to the most and down again, a tick a job.
    Drifting,
}

/// Which jobs keep the processor from a higher rank as long as their stretch allows it.
#[derive(Clone, Copy, Debug)]
pub enum Keeps {
    Never,
    Always,
    Random,
    /// Those of this rank.
    Only(usize),
    /// Those of this rank where the stretch lasts to the end of the job.
    Ending(usize),
}

/// What a run chooses.
#[derive(Clone, Copy, Debug)]
pub struct Choice {
    pub releases: Releases,
    pub lengths: Lengths,
    pub keeps: Keeps,
}

/// What was seen of one task.
#[derive(Clone, Copy, Debug, Default, PartialEq)]
pub struct Seen {
    pub jobs: u64,
    pub largest: u64,
    pub at_worst: u64,
    /// Jobs released at least a deadline of their own after every first release above: only these
    /// are promised not to finish before `best`.
    pub settled: u64,
    pub smallest: Option<u64>,
    pub at_best: u64,
    /// Ticks that its jobs kept from a higher rank.
    pub kept: u64,
    /// Jobs that finished after the next release of their task, and the most that were unfinished at
    /// once.
    pub overran: u64,
    pub pending: u64,
}

/// A job that finished past a line, or that can no longer finish within `worst`.
#[derive(Debug, PartialEq)]
pub struct Violation {
    pub rank: usize,
    pub release: u64,
    pub response: u64,
}

struct Job {
    release: u64,
    left: u64,
}

/// One task on the board: its unfinished jobs, the oldest first, and its next release.
struct Place {
    queue: VecDeque<Job>,
    next: u64,
    released: u64,
    /// From this tick on its jobs are settled.
    settled_from: u64,
    seen: Seen,
}

/// The job that had the last tick, if it is unfinished.
#[derive(Clone, Copy)]
struct Running {
    rank: usize,
    /// Its ticks since the last that fell to it by rank, that one among them: a stretch begins
    /// there at the latest.
    stretch: u64,
}

/// The ticks of a job's last stretch when it is as long as can be.
fn last_stretch(task: &Task) -> u64 {
    task.hold.clamp(1, task.least)
}

/// When the last stretch of a job can begin at the earliest: the ticks from the release, the one
/// that falls by rank at the start of the stretch among them. Jobs above that are released in
/// these ticks run in them.
fn ticks_by_rank(tasks: &[Task], own: usize) -> u64 {
    let task = &tasks[own];
    let least = task.least - last_stretch(task) + 1;
    let whole = |ticks: u64, above: &Task| (ticks.div_ceil(above.period) - 1) * above.least;
    let needed = |ticks| tasks[..own].iter().map(|above| whole(ticks, above)).sum::<u64>() + least;
    (1..=task.worst).rev().find(|&ticks| ticks == needed(ticks)).unwrap_or(least)
}

/// The shortest response that the rules allow to a settled job. It is above `best` where a stretch
/// is too short for all of the job.
pub fn shortest(tasks: &[Task], own: usize) -> u64 {
    ticks_by_rank(tasks, own) + last_stretch(&tasks[own]) - 1
}

pub fn first_releases(dice: &mut Dice, releases: Releases, tasks: &[Task]) -> Vec<u64> {
    let aligned = |rank: usize, own: usize| {
        let longest = tasks[..own].iter().map(|task| task.period).max().unwrap_or(0);
        let start = longest + tasks[own].deadline;
        if rank < own {
            (start + ticks_by_rank(tasks, own)) % tasks[rank].period
        } else {
            start
        }
    };
    let one = |rank: usize| match releases {
        Releases::Zero => 0,
        Releases::Random => dice.between(0, 2 * tasks[rank].period),
        Releases::Drifting => (tasks.len() - 1 - rank) as u64,
        Releases::Aligned(own) => aligned(rank, own),
        Releases::Behind(first) => (rank != first) as u64,
    };
    (0..tasks.len()).map(one).collect()
}

fn length(dice: &mut Dice, lengths: Lengths, task: &Task, turn: u64) -> u64 {
    let span = task.most - task.least;
    match lengths {
        Lengths::Most => task.most,
        Lengths::Least => task.least,
        Lengths::Alternating => {
            if turn.is_multiple_of(2) {
                task.most
            } else {
                task.least
            }
        }
        Lengths::Random => match dice.below(6) {
            0 => task.least,
            1 => task.most,
            2 => task.least + span / 2,
            _ => dice.between(task.least, task.most),
        },
        Lengths::Drifting => {
            let step = turn % (2 * span).max(1);
            task.least + if step <= span { step } else { 2 * span - step }
        }
    }
}

fn places(tasks: &[Task], first: &[u64]) -> Vec<Place> {
    let place = |rank: usize| {
        let last_first = first[..rank].iter().max();
        let settled_from = last_first.map_or(0, |last| last + tasks[rank].deadline);
        Place {
            queue: VecDeque::new(),
            next: first[rank],
            released: 0,
            settled_from,
            seen: Seen::default(),
        }
    };
    (0..tasks.len()).map(place).collect()
}

/// Releases the jobs of this tick. The turn starts at the rank, so that of two neighbours that
/// alternate one is long while the other is short.
fn release(dice: &mut Dice, lengths: Lengths, tasks: &[Task], places: &mut [Place], tick: u64) {
    for (rank, (task, place)) in tasks.iter().zip(places).enumerate() {
        if place.next == tick {
            let left = length(dice, lengths, task, place.released + rank as u64);
            place.queue.push_back(Job { release: tick, left });
            place.seen.pending = place.seen.pending.max(place.queue.len() as u64);
            place.released += 1;
            place.next += task.period;
        }
    }
}

/// Counts a job's response and tells whether it keeps both lines.
fn finish(task: &Task, place: &mut Place, release: u64, response: u64) -> bool {
    let seen = &mut place.seen;
    seen.jobs += 1;
    seen.largest = seen.largest.max(response);
    seen.at_worst += (response == task.worst) as u64;
    seen.overran += (response > task.period) as u64;
    if release < place.settled_from {
        return response <= task.worst;
    }
    seen.settled += 1;
    seen.smallest = Some(seen.smallest.map_or(response, |smallest| smallest.min(response)));
    seen.at_best += (response == task.best) as u64;
    task.best <= response && response <= task.worst
}

/// Whether the running job keeps the processor for the next tick of its stretch.
fn is_kept(
    dice: &mut Dice,
    keeps: Keeps,
    tasks: &[Task],
    places: &[Place],
    running: Running,
) -> bool {
    let more = tasks[running.rank].hold.saturating_sub(running.stretch);
    let chosen = match keeps {
        Keeps::Never => false,
        Keeps::Always => true,
        Keeps::Random => !dice.once_in(4),
        Keeps::Only(rank) => running.rank == rank,
        Keeps::Ending(rank) => running.rank == rank && places[rank].queue[0].left <= more,
    };
    more > 0 && chosen
}

/// Who has the tick: the job that keeps the processor, or else the highest rank with a job.
fn next_to_run(
    dice: &mut Dice,
    keeps: Keeps,
    tasks: &[Task],
    places: &[Place],
    running: Option<Running>,
) -> Option<Running> {
    let highest = places.iter().position(|place| !place.queue.is_empty())?;
    match running {
        Some(running)
            if running.rank != highest && is_kept(dice, keeps, tasks, places, running) =>
        {
            Some(Running { stretch: running.stretch + 1, ..running })
        }
        _ => Some(Running { rank: highest, stretch: 1 }),
    }
}

/// Runs the tick; an older job of a task goes first. The answer is the job that had the tick, if
/// it goes on: with a job its stretch ends.
fn run_tick(
    tasks: &[Task],
    places: &mut [Place],
    running: Running,
    tick: u64,
) -> Result<Option<Running>, Violation> {
    let rank = running.rank;
    let place = &mut places[rank];
    place.seen.kept += (running.stretch > 1) as u64;
    let job = &mut place.queue[0];
    job.left -= 1;
    if job.left > 0 {
        return Ok(Some(running));
    }
    let release = job.release;
    place.queue.pop_front();
    let response = tick + 1 - release;
    if finish(&tasks[rank], place, release, response) {
        Ok(None)
    } else {
        Err(Violation { rank: rank + 1, release, response })
    }
}

/// A job that is still unfinished when its latest response has passed breaks the line even if it
/// never finishes.
fn find_overdue(tasks: &[Task], places: &[Place], now: u64) -> Result<(), Violation> {
    for (rank, (task, place)) in tasks.iter().zip(places).enumerate() {
        if let Some(job) = place.queue.front().filter(|job| now - job.release >= task.worst) {
            return Err(Violation {
                rank: rank + 1,
                release: job.release,
                response: now - job.release,
            });
        }
    }
    Ok(())
}

/// Runs a board for a number of ticks and tells what was seen of each task.
pub fn run(
    dice: &mut Dice,
    tasks: &[Task],
    first: &[u64],
    choice: Choice,
    ticks: u64,
) -> Result<Vec<Seen>, Violation> {
    let mut places = places(tasks, first);
    let mut running = None;
    for tick in 0..ticks {
        release(dice, choice.lengths, tasks, &mut places, tick);
        running = match next_to_run(dice, choice.keeps, tasks, &places, running) {
            Some(next) => run_tick(tasks, &mut places, next, tick)?,
            None => None,
        };
        find_overdue(tasks, &places, tick + 1)?;
    }
    Ok(places.into_iter().map(|place| place.seen).collect())
}

#[cfg(test)]
mod tests {
    use super::*;

    /// A task whose deadline is its period, by the ends of what its jobs last and of its responses.
    fn task(period: u64, [least, most]: [u64; 2], hold: u64, [best, worst]: [u64; 2]) -> Task {
        Task { period, deadline: period, least, most, hold, best, worst }
    }

    /// The plan of document 01's example.
    fn example() -> Vec<Task> {
        vec![
            task(18, [2, 2], 0, [2, 2]),
            task(24, [6, 6], 0, [6, 8]),
            task(200, [17, 19], 0, [25, 35]),
        ]
    }

    fn never(releases: Releases, lengths: Lengths) -> Choice {
        Choice { releases, lengths, keeps: Keeps::Never }
    }

    fn at_worst(keeps: Keeps) -> Choice {
        Choice { releases: Releases::Zero, lengths: Lengths::Most, keeps }
    }

    #[test]
    fn first_jobs_released_together_at_worst_take_the_latest_response() {
        let choice = never(Releases::Zero, Lengths::Most);
        let seen = run(&mut Dice::new(1), &example(), &[0, 0, 0], choice, 100).unwrap();
        assert_eq!(seen.iter().map(|seen| seen.largest).collect::<Vec<_>>(), [2, 8, 35]);
        assert_eq!(seen[0].jobs, 6);
        // Nothing is above the first task, so that all its jobs are settled.
        assert_eq!((seen[0].settled, seen[0].at_best, seen[0].at_worst), (6, 6, 6));
        // The only job of the third task is too early to be held to its best line.
        assert_eq!((seen[2].jobs, seen[2].settled, seen[2].smallest), (1, 0, None));
    }

    /// The example with a switch of 1, and the lines of the reviewer for it.
    fn switched() -> Vec<Task> {
        vec![
            task(18, [2, 3], 0, [2, 3]),
            task(24, [6, 7], 0, [6, 10]),
            task(200, [17, 20], 0, [25, 43]),
        ]
    }

    #[test]
    fn with_a_switch_the_latest_response_is_taken_and_the_earliest_stays() {
        let mut dice = Dice::new(1);
        let choice = never(Releases::Zero, Lengths::Most);
        let seen = run(&mut dice, &switched(), &[0, 0, 0], choice, 100).unwrap();
        assert_eq!(seen.iter().map(|seen| seen.largest).collect::<Vec<_>>(), [3, 10, 43]);
        let choice = never(Releases::Aligned(2), Lengths::Least);
        let first = first_releases(&mut dice, choice.releases, &switched());
        let seen = run(&mut dice, &switched(), &first, choice, 1_000).unwrap();
        assert_eq!(seen[2].smallest, Some(25));
        // The lines without a switch are passed.
        let mut tasks = example();
        tasks.iter_mut().zip(switched()).for_each(|(task, longer)| task.most = longer.most);
        let choice = never(Releases::Zero, Lengths::Most);
        let broken = run(&mut dice, &tasks, &[0, 0, 0], choice, 100);
        assert_eq!(broken, Err(Violation { rank: 1, release: 0, response: 2 }));
    }

    #[test]
    fn an_aligned_job_at_best_takes_the_earliest_response() {
        let mut dice = Dice::new(1);
        let choice = never(Releases::Aligned(2), Lengths::Least);
        let first = first_releases(&mut dice, choice.releases, &example());
        let seen = run(&mut dice, &example(), &first, choice, 1_000).unwrap();
        assert_eq!(seen[2].smallest, Some(25));
    }

    #[test]
    fn a_line_drawn_too_close_is_broken() {
        let mut tasks = example();
        tasks[2].worst = 34;
        let choice = never(Releases::Zero, Lengths::Most);
        let broken = run(&mut Dice::new(1), &tasks, &[0, 0, 0], choice, 100);
        assert_eq!(broken, Err(Violation { rank: 3, release: 0, response: 34 }));
        let mut tasks = example();
        let choice = never(Releases::Aligned(2), Lengths::Least);
        let first = first_releases(&mut Dice::new(1), choice.releases, &tasks);
        tasks[2].best = 26;
        let broken = run(&mut Dice::new(1), &tasks, &first, choice, 1_000);
        assert_eq!(broken, Err(Violation { rank: 3, release: first[2], response: 25 }));
    }

    // ---- Jobs that overrun --------------------------------------------------------------

    /// The largest responses, what the last task's jobs have done, and how many of them were held to
    /// their best line, in a run of some ticks with all released at once and at their longest.
    fn at_once(tasks: &[Task], ticks: u64) -> Result<(Vec<u64>, [u64; 5]), Violation> {
        let first = vec![0; tasks.len()];
        let seen = run(&mut Dice::new(1), tasks, &first, at_worst(Keeps::Never), ticks)?;
        let last = seen[tasks.len() - 1];
        let counts = [last.jobs, last.overran, last.at_worst, last.pending, last.settled];
        Ok((seen.iter().map(|seen| seen.largest).collect(), counts))
    }

    /// Two axis loops of 8 ticks every 40 and 14 every 70 above a heater of 58 every 100, which has a
    /// deadline of 150. The heater's first job has ticks 22 to 39, 48 to 69 and 92 to 109, so that it is
    /// done ten ticks after the next release; the second has 110 to 119, 128 to 139, 154 to 159 and 168
    /// to 197. The third has 208, 209, 224 to 239, 248 to 279 and 302 to 309: it is done at 310.
    fn heater(deadline: u64) -> Vec<Task> {
        let heater = task(100, [50, 58], 0, [72, 110]);
        vec![
            task(40, [8, 8], 0, [8, 8]),
            task(70, [14, 14], 0, [14, 22]),
            Task { deadline, ..heater },
        ]
    }

    #[test]
    fn a_job_may_be_done_after_the_next_release_and_goes_before_it() {
        let tasks = heater(150);
        assert_eq!(at_once(&tasks, 109), Ok((vec![8, 22, 0], [0, 0, 0, 2, 0])));
        assert_eq!(at_once(&tasks, 110), Ok((vec![8, 22, 110], [1, 1, 1, 2, 0])));
        assert_eq!(at_once(&tasks, 197), Ok((vec![8, 22, 110], [1, 1, 1, 2, 0])));
        assert_eq!(at_once(&tasks, 198), Ok((vec![8, 22, 110], [2, 1, 1, 2, 0])));
        let mut tight = heater(150);
        tight[2].worst = 109;
        let overdue = Violation { rank: 3, release: 0, response: 109 };
        assert_eq!(at_once(&tight, 200), Err(overdue));
    }

    #[test]
    fn jobs_are_held_to_their_best_line_from_a_deadline_of_their_own_on() {
        // The jobs are released at 0, 100 and 200, all above at 0 for the first time.
        for (deadline, settled) in [(100, 2), (101, 1), (150, 1), (200, 1), (201, 0), (1_000, 0)] {
            let (_, counts) = at_once(&heater(deadline), 310).unwrap();
            assert_eq!(counts, [3, 2, 2, 2, settled], "{deadline}");
        }
        // The first is too early by its line, and nobody minds before the deadline.
        let mut late = heater(101);
        late[2].best = 110;
        let early = Violation { rank: 3, release: 100, response: 98 };
        assert!(at_once(&late, 310).is_ok());
        late[2].deadline = 100;
        assert_eq!(at_once(&late, 310), Err(early));
    }

    /// Jobs of 4 ticks every 10 below one of 50 every 100. Six wait at tick 50, and the qth is done at
    /// 54 + 4 q, the ninth before its next release.
    #[test]
    fn many_jobs_wait_and_the_oldest_goes_first() {
        let mut tasks = vec![task(100, [50, 50], 0, [50, 50]), task(10, [4, 4], 0, [4, 54])];
        tasks[1].deadline = 60;
        for (ticks, done) in
            [(53, 0u64), (54, 1), (57, 1), (58, 2), (85, 8), (86, 9), (93, 9), (94, 10)]
        {
            let (largest, counts) = at_once(&tasks, ticks).unwrap();
            assert_eq!(largest, [50, if done == 0 { 0 } else { 54 }], "{ticks}");
            // Responses are 54, 48 and so on down to 6, and then 4.
            assert_eq!(counts, [done, done.min(8), done.min(1), 6, done.saturating_sub(6)]);
        }
        tasks[1].worst = 53;
        let overdue = Violation { rank: 2, release: 0, response: 53 };
        assert_eq!(at_once(&tasks, 100), Err(overdue));
    }

    #[test]
    fn the_job_that_is_to_be_the_shortest_is_held_to_its_best_line() {
        let (tasks, mut dice) = (heater(150), Dice::new(1));
        let first = first_releases(&mut dice, Releases::Aligned(2), &tasks);
        // 70 and the deadline, and then the releases above 72 ticks later.
        assert_eq!(first, [12, 12, 220]);
        let choice = Choice { lengths: Lengths::Least, ..at_worst(Keeps::Never) };
        let seen = run(&mut dice, &tasks, &first, choice, 292).unwrap();
        assert_eq!((seen[2].jobs, seen[2].settled, seen[2].smallest), (1, 1, Some(72)));
    }

    /// Two ticks above five of which three may be a stretch.
    fn two(hold: u64) -> Vec<Task> {
        vec![task(10, [2, 2], 0, [2, 4]), task(40, [5, 5], hold, [5, 7])]
    }

    /// The largest responses in the first ten ticks, the lower job released first, and the ticks
    /// that it kept.
    fn largest_of_two(hold: u64, keeps: Keeps) -> (u64, u64, u64) {
        let seen = run(&mut Dice::new(1), &two(hold), &[1, 0], at_worst(keeps), 10).unwrap();
        (seen[0].largest, seen[1].largest, seen[1].kept)
    }

    #[test]
    fn a_stretch_keeps_the_processor_with_its_first_tick_among_its_ticks() {
        assert_eq!(largest_of_two(3, Keeps::Always), (4, 7, 2));
        assert_eq!(largest_of_two(3, Keeps::Only(1)), (4, 7, 2));
        assert_eq!(largest_of_two(3, Keeps::Only(0)), (2, 7, 0));
        assert_eq!(largest_of_two(3, Keeps::Never), (2, 7, 0));
        assert_eq!(largest_of_two(2, Keeps::Always), (3, 7, 1));
        for hold in [0, 1] {
            assert_eq!(largest_of_two(hold, Keeps::Always), (2, 7, 0));
        }
        // The stretch does not last to the job's end, so that none is kept.
        assert_eq!(largest_of_two(3, Keeps::Ending(1)), (2, 7, 0));
        assert_eq!(
            run(&mut Dice::new(1), &two(4), &[1, 0], at_worst(Keeps::Always), 10),
            Err(Violation { rank: 1, release: 1, response: 4 })
        );
    }

    #[test]
    fn stretches_follow_each_other_and_each_begins_by_rank() {
        let tasks = [task(5, [2, 2], 0, [2, 4]), task(40, [12, 12], 3, [12, 20])];
        let choice = at_worst(Keeps::Always);
        let seen = run(&mut Dice::new(1), &tasks, &[1, 0], choice, 18).unwrap();
        assert_eq!((seen[0].jobs, seen[0].at_worst), (3, 3));
        assert_eq!((seen[1].jobs, seen[1].largest, seen[1].kept), (1, 18, 8));
        // Released together the higher goes first, and no stretch begins before its two ticks.
        let seen = run(&mut Dice::new(1), &tasks, &[0, 0], choice, 5).unwrap();
        assert_eq!((seen[0].jobs, seen[0].largest), (1, 2));
    }

    #[test]
    fn a_stretch_ends_with_its_job() {
        let tasks = [task(3, [1, 1], 0, [1, 3]), task(3, [2, 3], 3, [2, 3])];
        let choice = Choice { lengths: Lengths::Least, ..at_worst(Keeps::Always) };
        let seen = run(&mut Dice::new(1), &tasks, &[0, 0], choice, 30).unwrap();
        assert_eq!((seen[0].jobs, seen[0].largest, seen[1].kept), (10, 1, 0));
    }

    #[test]
    fn the_shortest_response_is_best_where_a_stretch_is_long_enough() {
        for (hold, response) in [(0, 8), (1, 8), (2, 8), (3, 8), (4, 6), (5, 6), (6, 6), (7, 6)] {
            // The lines are wide, so that none is broken whatever the hold.
            let tasks = [task(5, [2, 2], 0, [2, 20]), task(20, [6, 7], hold, [6, 13])];
            assert_eq!(shortest(&tasks, 1), response);
            let mut dice = Dice::new(1);
            let first = first_releases(&mut dice, Releases::Aligned(1), &tasks);
            let choice = Choice { lengths: Lengths::Least, ..at_worst(Keeps::Ending(1)) };
            let seen = run(&mut dice, &tasks, &first, choice, 100).unwrap();
            assert_eq!(seen[1].smallest, Some(response), "hold {hold}");
        }
    }

    #[test]
    fn lengths_stay_between_least_and_most() {
        let task = task(20, [3, 5], 0, [3, 5]);
        let mut dice = Dice::new(1);
        let mut drift = |turn| length(&mut dice, Lengths::Drifting, &task, turn);
        assert_eq!([drift(0), drift(1), drift(2), drift(3), drift(4)], [3, 4, 5, 4, 3]);
        let alternate = |turn| length(&mut Dice::new(1), Lengths::Alternating, &task, turn);
        assert_eq!([alternate(0), alternate(1)], [5, 3]);
        // At random each end and the middle come up even between far ends.
        let task = Task { least: 3, most: 1_003, ..task };
        let drawn: Vec<u64> =
            (0..200).map(|turn| length(&mut dice, Lengths::Random, &task, turn)).collect();
        assert!([3, 503, 1_003].iter().all(|length| drawn.contains(length)));
        assert!(drawn.iter().all(|length| (3..=1_003).contains(length)));
    }
}
