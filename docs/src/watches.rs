//! The board to watch of request 5, written from documents 01 and 02 alone: how its text is read,
//! and document 01's board tick by tick, with a queue of jobs for each rank.
//!
//! The jobs that the lengths go to are not met one after another but listed and sorted: the first
//! of each task by their ticks of release, those of one tick by rank.

use crate::model::{self, Outcome, Refusal, Row, Table};
use std::collections::{BTreeMap, VecDeque};

/// The bytes of its input that the program takes, and those of its buffer.
pub const WATCH_TAKES: usize = 65_536;
pub const WATCH_ROOM: usize = 65_536;

pub const MOST_RELEASE: u64 = 1_000_000;
pub const MOST_TICKS: u64 = 1_000_000;
pub const MOST_LENGTHS: u64 = 2_048;

/// What a text says, once it is read.
#[derive(Clone, Debug, PartialEq)]
pub struct Watch {
    pub table: Table,
    /// Rows of the table, the highest rank first.
    pub order: Vec<usize>,
    /// The first release of each row, in table order.
    pub first: Vec<u64>,
    pub ticks: u64,
    pub lengths: Vec<u64>,
}

/// A task on the board; the list of them is in order of rank, the highest first.
#[derive(Clone, Copy, Debug, PartialEq)]
pub struct Task {
    pub number: u64,
    pub first: u64,
    pub period: u64,
    /// What a job may last: its best time, up to its worst and the switch.
    pub least: u64,
    pub most: u64,
}

/// Which job it is, since a task releases no two on one tick. The smaller has its length first.
#[derive(Clone, Copy, Debug, PartialEq, Eq, PartialOrd, Ord)]
pub struct Release {
    pub tick: u64,
    pub rank: usize,
}

/// A job on the board.
struct Job {
    release: u64,
    left: u64,
}

/// A job that has had its last tick, the tick before `finish`.
#[derive(Clone, Copy, Debug, PartialEq)]
pub struct Finished {
    pub task: u64,
    pub release: u64,
    pub finish: u64,
}

// ---- Reading ----------------------------------------------------------------------------

/// The tasks of an order, with their first releases.
fn ranked(table: &Table, order: &[usize], first: &[u64]) -> Vec<Task> {
    let task = |&index: &usize| {
        let Row { task: number, period, worst, best: least, .. } = table.rows[index];
        Task { number, first: first[index], period, least, most: worst + table.switch }
    };
    order.iter().map(task).collect()
}

/// The first jobs of a run that has no end, in order of release, those of one tick in rank order;
/// no task has more of them than there are in all.
pub fn first_jobs(tasks: &[Task], count: usize) -> Vec<Release> {
    let mut jobs = Vec::new();
    for (rank, task) in tasks.iter().enumerate() {
        let tick = |turn: usize| task.first + turn as u64 * task.period;
        jobs.extend((0..count).map(|turn| Release { tick: tick(turn), rank }));
    }
    jobs.sort();
    jobs.truncate(count);
    jobs
}

/// The first releases, a line for each row, after the lines taken.
fn releases_after(lines: &[&[u8]], taken: usize, rows: usize) -> Result<Vec<u64>, Refusal> {
    let places = taken + 1..=taken + rows;
    places.map(|place| model::number_at(lines, place, "release", 0, MOST_RELEASE)).collect()
}

/// The lengths of these jobs, a line for each, after the lines taken.
fn lengths_after(
    lines: &[&[u8]],
    taken: usize,
    tasks: &[Task],
    jobs: &[Release],
) -> Result<Vec<u64>, Refusal> {
    let length = |(at, job): (usize, &Release)| {
        let Task { least, most, .. } = tasks[job.rank];
        model::number_at(lines, taken + 1 + at, "length", least, most)
    };
    jobs.iter().enumerate().map(length).collect()
}

/// The text, line by line. The board has no stretches, so that a hold is out of range above 0.
pub fn read_watch(text: &[u8]) -> Result<Watch, Refusal> {
    let lines = model::lines_of(text);
    let (table, mut taken) = model::table_at_start(&lines, 0)?;
    let rows = table.rows.len();
    let order = model::ranks_after(&lines, taken, &table.rows)?;
    taken += rows;
    let first = releases_after(&lines, taken, rows)?;
    taken += rows;
    let ticks = model::number_at(&lines, taken + 1, "ticks", 1, MOST_TICKS)?;
    let count = model::number_at(&lines, taken + 2, "lengths", 0, MOST_LENGTHS)? as usize;
    taken += 2;
    let tasks = ranked(&table, &order, &first);
    let lengths = lengths_after(&lines, taken, &tasks, &first_jobs(&tasks, count))?;
    model::nothing_after(&lines, taken + count)?;
    Ok(Watch { table, order, first, ticks, lengths })
}

// ---- The board --------------------------------------------------------------------------

impl Watch {
    pub fn tasks(&self) -> Vec<Task> {
        ranked(&self.table, &self.order, &self.first)
    }

    /// Refusal 7 at the first late rank.
    fn in_time(&self) -> Result<(), Refusal> {
        model::figures_of_order(&self.table, &self.order).map(drop)
    }

    /// The jobs that finish within the ticks, in order of finish.
    pub fn finished(&self) -> Vec<Finished> {
        let tasks = self.tasks();
        let jobs = first_jobs(&tasks, self.lengths.len());
        let lengths = jobs.into_iter().zip(self.lengths.iter().copied()).collect();
        let mut queues: Vec<VecDeque<Job>> = tasks.iter().map(|_| VecDeque::new()).collect();
        let mut finished = Vec::new();
        for tick in 0..self.ticks {
            release(&tasks, &lengths, &mut queues, tick);
            finished.extend(run_tick(&tasks, &mut queues, tick));
        }
        finished
    }

    /// What is to be written, or refusal 7.
    pub fn outcome(&self) -> Outcome {
        self.in_time()?;
        Ok(self.finished().iter().flat_map(|job| job.lines().into_bytes()).collect())
    }
}

/// Puts the jobs of this tick behind the others of their ranks. A job that the list does not reach
/// lasts the most.
fn release(
    tasks: &[Task],
    lengths: &BTreeMap<Release, u64>,
    queues: &mut [VecDeque<Job>],
    tick: u64,
) {
    for (rank, (task, queue)) in tasks.iter().zip(queues).enumerate() {
        if tick >= task.first && (tick - task.first).is_multiple_of(task.period) {
            let left = lengths.get(&Release { tick, rank }).copied().unwrap_or(task.most);
            queue.push_back(Job { release: tick, left });
        }
    }
}

/// Gives the tick to the oldest job of the highest rank that has one; the job if that was its last.
fn run_tick(tasks: &[Task], queues: &mut [VecDeque<Job>], tick: u64) -> Option<Finished> {
    let rank = queues.iter().position(|queue| !queue.is_empty())?;
    let job = queues[rank].front_mut()?;
    job.left -= 1;
    if job.left > 0 {
        return None;
    }
    let job = queues[rank].pop_front()?;
    Some(Finished { task: tasks[rank].number, release: job.release, finish: tick + 1 })
}

impl Finished {
    pub fn lines(&self) -> String {
        let Finished { task, release, finish } = self;
        format!("task={task}\nrelease={release}\nfinish={finish}\n")
    }
}

/// What a call comes to in a buffer that is long enough.
pub fn watched(text: &[u8]) -> Outcome {
    read_watch(text)?.outcome()
}

/// What the program's call comes to: its buffer is not long enough for every run.
pub fn watched_in_program(text: &[u8]) -> Outcome {
    let output = watched(text)?;
    model::refuse_if(output.len() > WATCH_ROOM, 9, 0)?;
    Ok(output)
}

#[cfg(test)]
mod tests {
    use super::*;
    use crate::dice::Dice;
    use crate::model::{printed, written, Answer};
    use crate::tables;

    /// Document 01's example with its plan's order, all loops released at tick 0.
    const HEAD: &str = "board=7\ntasks=3\nswitch=0\n\
        task=11\nperiod=24\ndeadline=24\nworst=6\nbest=6\n\
        alpha=1000\nbeta=8000\nhold=0\npoints=0\n\
        task=12\nperiod=18\ndeadline=18\nworst=2\nbest=2\n\
        alpha=1000\nbeta=8000\nhold=0\npoints=0\n\
        task=13\nperiod=200\ndeadline=200\nworst=19\nbest=17\n\
        alpha=3000\nbeta=57000\nhold=0\npoints=0\n\
        rank=12\nrank=11\nrank=13\nrelease=0\nrelease=0\nrelease=0\n";

    /// Two loops under a switch of 1: a job of 5 lasts 2 to 4 ticks, one of 6 lasts 1 or 2. In
    /// this order the latest responses are 2 and 8.
    ///
    /// In order of release the jobs are 5 at 1, 6 at 3, 6 at 7, 6 and then 5 at 11, 6 at 15, 6 at
    /// 19, 5 at 21, 6 at 23, 6 at 27. With lengths 4, 2, 1, 2, 3 for the first five the ticks go
    ///
    /// ```text
    /// tick  0  1  2  3  4  5  6  7  8  9 10 11 12 13 14 15 16 17 18 19 20 21 22 23 24 25 26
    /// task  -  5  5  6  6. 5  5. 6. -  -  -  6  6. 5  5  6  6. 5. -  6  6. 5  5  6  6. 5  5.
    /// ```
    ///
    /// where a point stands at the last tick of a job: it finishes at the tick after it.
    const TWO: &str = "board=1\ntasks=2\nswitch=1\n\
        task=5\nperiod=10\ndeadline=10\nworst=3\nbest=2\nalpha=1000\nbeta=0\nhold=0\npoints=0\n\
        task=6\nperiod=4\ndeadline=4\nworst=1\nbest=1\nalpha=1000\nbeta=0\nhold=0\npoints=0\n\
        rank=6\nrank=5\nrelease=1\nrelease=3\n";

    const TWO_ENDS: [(u64, u64, u64); 9] = [
        (6, 3, 5),
        (5, 1, 7),
        (6, 7, 8),
        (6, 11, 13),
        (6, 15, 17),
        (5, 11, 18),
        (6, 19, 21),
        (6, 23, 25),
        (5, 21, 27),
    ];

    /// The text that begins so, with its ticks and these lengths.
    fn watch(start: &str, ticks: u64, lengths: &[u64]) -> String {
        let lines: String = lengths.iter().map(|length| format!("length={length}\n")).collect();
        format!("{start}ticks={ticks}\nlengths={}\n{lines}", lengths.len())
    }

    /// Jobs as the program writes them, each by task, release and finish.
    fn prints(jobs: &[(u64, u64, u64)]) -> Outcome {
        let lines = |&(task, release, finish): &(u64, u64, u64)| {
            format!("task={task}\nrelease={release}\nfinish={finish}\n").into_bytes()
        };
        Ok(jobs.iter().flat_map(lines).collect())
    }

    fn refused(number: u64, place: u64) -> Outcome {
        Err(Refusal { number, place })
    }

    fn says(text: &str) -> Outcome {
        watched(text.as_bytes())
    }

    /// The text with something else in place of what it has once.
    fn changed(text: &str, from: &str, to: &str) -> String {
        assert_eq!(text.matches(from).count(), 1, "{from}");
        text.replacen(from, to, 1)
    }

    // ---- Runs ---------------------------------------------------------------------------

    /// 12 runs in ticks 0 and 1, 11 in 2 to 7, 13 from 8 on but for 18 and 19 (12) and 24 to 29
    /// (11): its nineteenth tick is tick 34, and 35 is the `worst` line of document 01's plan.
    #[test]
    fn the_example_released_at_once() {
        let jobs = [(12, 0, 2), (11, 0, 8), (12, 18, 20), (11, 24, 30), (13, 0, 35), (12, 36, 38)];
        for (ticks, count) in [(1, 0), (2, 1), (7, 1), (8, 2), (34, 4), (35, 5), (37, 5), (38, 6)] {
            assert_eq!(says(&watch(HEAD, ticks, &[])), prints(&jobs[..count]), "{ticks} ticks");
        }
        // The first three lengths are for 12, 11 and 13: two ticks less for 13.
        let sooner = [(12, 0, 2), (11, 0, 8), (12, 18, 20), (11, 24, 30), (13, 0, 33)];
        assert_eq!(says(&watch(HEAD, 35, &[2, 6, 17])), prints(&sooner));
        assert_eq!(says(&watch(HEAD, 33, &[2, 6, 17, 2, 6, 2, 6])), prints(&sooner));
    }

    #[test]
    fn two_loops_under_a_switch() {
        let lengths = [4, 2, 1, 2, 3];
        for ticks in 1..=28 {
            let done: Vec<_> = TWO_ENDS.into_iter().filter(|job| job.2 <= ticks).collect();
            assert_eq!(says(&watch(TWO, ticks, &lengths)), prints(&done), "{ticks} ticks");
        }
        // What the list says of the jobs after it is what they last without it.
        assert_eq!(
            says(&watch(TWO, 27, &[4, 2, 1, 2, 3, 2, 2, 4, 2, 2])),
            says(&watch(TWO, 27, &lengths))
        );
        // Without a list all last the most, as with one that says so.
        let most = [4, 2, 2, 2, 4, 2, 2, 4, 2];
        assert_eq!(says(&watch(TWO, 27, &[])), says(&watch(TWO, 27, &most)));
        let later = [(6, 3, 5), (5, 1, 7), (6, 7, 9), (6, 11, 13), (6, 15, 17), (5, 11, 19)];
        assert_eq!(says(&watch(TWO, 20, &[])), prints(&later));
    }

    #[test]
    fn jobs_of_one_tick_take_lengths_in_rank_order() {
        // At tick 11 the first length is of task 6, which is the later in the table.
        assert_eq!(says(&watch(TWO, 27, &[4, 2, 1, 3, 2])), refused(3, 31));
        assert_eq!(says(&watch(TWO, 27, &[4, 2, 1, 2, 5])), refused(3, 32));
        assert_eq!(says(&watch(TWO, 27, &[4, 2, 1, 2, 1])), refused(3, 32));
        assert_eq!(says(&watch(HEAD, 35, &[6, 2, 17])), refused(3, 39));
        // In another order of ranks 11 comes first.
        let other = changed(HEAD, "rank=12\nrank=11\n", "rank=11\nrank=12\n");
        let jobs = [(11, 0, 6), (12, 0, 8), (12, 18, 20), (11, 24, 30), (13, 0, 33)];
        assert_eq!(says(&watch(&other, 35, &[6, 2, 17])), prints(&jobs));
        assert_eq!(says(&watch(&other, 35, &[2, 6, 17])), refused(3, 39));
    }

    #[test]
    fn lengths_go_to_jobs_past_the_last_tick_too() {
        // The eighth is of 5 at tick 21, and the run has one tick, which is idle.
        assert_eq!(says(&watch(TWO, 1, &[4, 2, 1, 2, 3, 2, 2, 4])), prints(&[]));
        assert_eq!(says(&watch(TWO, 1, &[4, 2, 1, 2, 3, 2, 2, 5])), refused(3, 35));
        assert_eq!(says(&watch(TWO, 1, &[4, 2, 1, 2, 3, 2, 3, 4])), refused(3, 34));
        // A loop that begins late has none before: a thousand jobs of 5 come first, and at the tick
        // 1,000,000 both are released.
        let late = changed(TWO, "release=1\nrelease=3", "release=0\nrelease=1000000");
        let late = late.replace("period=10", "period=1000").replace("period=4", "period=1000000");
        let mut lengths = vec![4; 1_000];
        lengths.extend([2, 4, 4, 4]);
        assert!(says(&watch(&late, 1, &lengths)).is_ok());
        lengths[1_000] = 4;
        assert_eq!(says(&watch(&late, 1, &lengths)), refused(3, 1_028));
        lengths[999] = 1;
        assert_eq!(says(&watch(&late, 1, &lengths)), refused(3, 1_027));
    }

    #[test]
    fn a_first_release_at_or_past_the_last_tick() {
        let one = |release: u64, ticks: u64| {
            let start = format!(
                "board=1\ntasks=1\nswitch=0\ntask=9\nperiod=50\ndeadline=50\nworst=1\nbest=1\n\
                alpha=1000\nbeta=0\nhold=0\npoints=0\nrank=9\nrelease={release}\n"
            );
            says(&watch(&start, ticks, &[]))
        };
        assert_eq!(one(0, 1), prints(&[(9, 0, 1)]));
        assert_eq!(one(0, 50), prints(&[(9, 0, 1)]));
        assert_eq!(one(0, 51), prints(&[(9, 0, 1), (9, 50, 51)]));
        assert_eq!(one(1, 1), prints(&[]));
        assert_eq!(one(999_999, 1_000_000), prints(&[(9, 999_999, 1_000_000)]));
        assert_eq!(one(999_999, 999_999), prints(&[]));
        assert_eq!(one(1_000_000, 1_000_000), prints(&[]));
        assert_eq!(one(1_000_001, 1_000_000), refused(3, 14));
        assert_eq!(one(0, 1_000_001), refused(3, 15));
        assert_eq!(one(0, 0), refused(3, 15));
    }

    #[test]
    fn betas_are_of_no_account() {
        let unstable = changed(HEAD, "beta=57000", "beta=0");
        assert_eq!(says(&watch(&unstable, 35, &[])), says(&watch(HEAD, 35, &[])));
    }

    /// Text of the example with a curve of task 11 in these lines, and of another of its rows.
    fn with_curves(first: &str, last: &str) -> String {
        let text = changed(HEAD, "points=0\ntask=12", &format!("{first}task=12"));
        changed(&text, "57000\nhold=0\npoints=0\n", &format!("57000\nhold=0\n{last}"))
    }

    #[test]
    fn curves_are_of_no_account_but_read() {
        // Neither would be stable.
        let one = "points=1\ndelay=0\nallow=0\n";
        let two = "points=2\ndelay=3\nallow=0\ndelay=4\nallow=0\n";
        assert_eq!(with_curves("points=0\n", "points=0\n"), HEAD);
        let text = with_curves(one, two);
        let plain = says(&watch(HEAD, 35, &[2, 6, 17]));
        assert!(plain.is_ok());
        assert_eq!(says(&watch(&text, 35, &[2, 6, 17])), plain);
        // Two lines more before a length of 12, and four before one of 13.
        assert_eq!(says(&watch(&text, 35, &[2, 6, 16])), refused(3, 41 + 6));
        let refuses = |first: &str, last: &str, number, place| {
            let text = watch(&with_curves(first, last), 35, &[]);
            assert_eq!(says(&text), refused(number, place), "{first} {last}");
        };
        refuses("", two, 1, 12);
        refuses("points=9\n", two, 3, 12);
        refuses("points=x\n", two, 2, 12);
        refuses("points=1\ndelay=1\n", two, 1, 14);
        refuses("points=1\ndelay=1000001\nallow=1\n", two, 3, 13);
        refuses("points=1\ndelay=1\nallow=1000001\n", two, 3, 14);
        refuses(one, "points=2\ndelay=3\nallow=0\ndelay=3\nallow=0\n", 11, 35);
        refuses(one, "points=2\ndelay=3\nallow=0\ndelay=4\nallow=1\n", 11, 36);
        refuses(one, "points=2\ndelay=3\nallow=0\n", 1, 35);
        refuses(one, "points=0\ndelay=3\nallow=0\n", 1, 33);
        // A hold above 0 is said before them, a late task after them.
        let held = changed(&watch(&text, 35, &[]), "57000\nhold=0", "57000\nhold=1");
        assert_eq!(says(&held), refused(3, 31));
        let late = changed(&text, "rank=12\nrank=11\nrank=13\n", "rank=11\nrank=13\nrank=12\n");
        assert_eq!(says(&watch(&late, 35, &[])), refused(7, 3));
    }

    /// Two axis loops and a heater that may be done half a period after its next release.
    const HEATER: &str = "board=1\ntasks=3\nswitch=0\n\
        task=91\nperiod=40\ndeadline=40\nworst=8\nbest=8\n\
        alpha=1000\nbeta=0\nhold=0\npoints=0\n\
        task=92\nperiod=70\ndeadline=70\nworst=14\nbest=14\n\
        alpha=1000\nbeta=0\nhold=0\npoints=0\n\
        task=93\nperiod=100\ndeadline=150\nworst=58\nbest=50\n\
        alpha=1000\nbeta=0\nhold=0\npoints=0\n\
        rank=91\nrank=92\nrank=93\nrelease=0\nrelease=0\nrelease=0\n";

    /// 91 has ticks 0 to 7 and so on every 40, 92 has 8 to 21, then 70 to 79 and 88 to 91, and 140 to
    /// 153. That leaves 22 to 39, 48 to 69 and 92 to 109 for the first job of 93, which are 58, while its
    /// second is released at 100, and for that 110 to 119, 128 to 139, 154 to 159 and 168 to 197.
    #[test]
    fn a_job_is_done_after_the_next_release_and_the_older_goes_first() {
        let mut jobs = vec![
            (91, 0, 8),
            (92, 0, 22),
            (91, 40, 48),
            (91, 80, 88),
            (92, 70, 92),
            (93, 0, 110),
            (91, 120, 128),
            (92, 140, 154),
            (91, 160, 168),
            (93, 100, 198),
        ];
        for (ticks, count) in [(100, 5), (109, 5), (110, 6), (197, 9), (198, 10)] {
            assert_eq!(says(&watch(HEATER, ticks, &[])), prints(&jobs[..count]), "{ticks} ticks");
        }
        // The seventh length is of the second job of 93, released at 100: eight ticks less.
        jobs[9] = (93, 100, 190);
        assert_eq!(says(&watch(HEATER, 190, &[8, 14, 58, 8, 14, 8, 50])), prints(&jobs));
        assert_eq!(says(&watch(HEATER, 189, &[8, 14, 58, 8, 14, 8, 50])), prints(&jobs[..9]));
        assert_eq!(says(&watch(HEATER, 190, &[8, 14, 58, 8, 14, 8, 49])), refused(3, 45));
        // The first ten ticks shorter: it is done at the release of the second.
        jobs[5] = (93, 0, 102);
        let sooner = says(&watch(HEATER, 110, &[8, 14, 50]));
        assert_eq!(sooner, prints(&jobs[..6]));
    }

    #[test]
    fn late_is_past_the_deadline() {
        let by = |deadline: u64| {
            let start = changed(HEATER, "deadline=150", &format!("deadline={deadline}"));
            says(&watch(&start, 8, &[]))
        };
        for deadline in [110, 111, 150, 1_000_000] {
            assert_eq!(by(deadline), prints(&[(91, 0, 8)]), "{deadline}");
        }
        for deadline in [1, 57, 58, 100, 109] {
            assert_eq!(by(deadline), refused(7, 3), "{deadline}");
        }
        // Short of the period too, of 12 in the example.
        let short = |deadline: u64| {
            let start = changed(HEAD, "deadline=18", &format!("deadline={deadline}"));
            says(&watch(&start, 2, &[]))
        };
        assert_eq!(short(2), prints(&[(12, 0, 2)]));
        assert_eq!(short(1), refused(7, 1));
    }

    /// Jobs of 4 ticks every 10 below one of 50 every 100: six of them wait at tick 50, and only the
    /// tenth, released at 90, begins at once.
    #[test]
    fn many_jobs_of_a_task_wait_for_each_other() {
        let start = |deadline: u64| {
            format!(
                "board=1\ntasks=2\nswitch=0\ntask=1\nperiod=100\ndeadline=50\nworst=50\nbest=50\n\
                alpha=1000\nbeta=0\nhold=0\npoints=0\ntask=2\nperiod=10\ndeadline={deadline}\n\
                worst=4\nbest=1\nalpha=1000\nbeta=0\nhold=0\npoints=0\n\
                rank=1\nrank=2\nrelease=0\nrelease=0\n"
            )
        };
        let finishes = [54, 58, 62, 66, 70, 74, 78, 82, 86, 94];
        let mut jobs = vec![(1, 0, 50)];
        jobs.extend(finishes.into_iter().enumerate().map(|(q, finish)| (2, 10 * q as u64, finish)));
        assert_eq!(says(&watch(&start(54), 94, &[])), prints(&jobs));
        assert_eq!(says(&watch(&start(54), 93, &[])), prints(&jobs[..10]));
        assert_eq!(says(&watch(&start(53), 94, &[])), refused(7, 2));
        // Lengths go to them by release: the first five take 1, 2, 3, 4 and 1.
        let finishes = [51, 53, 56, 60, 61, 65, 69, 74, 84, 94];
        jobs.truncate(1);
        jobs.extend(finishes.into_iter().enumerate().map(|(q, finish)| (2, 10 * q as u64, finish)));
        assert_eq!(says(&watch(&start(54), 94, &[50, 1, 2, 3, 4, 1])), prints(&jobs));
    }

    /// A table without holds and an order of it, at random, one time in three by period, and one
    /// time the other way round.
    fn any_watch(dice: &mut Dice) -> Watch {
        let (family, count) = (dice.pick(&tables::SHORT_FAMILIES), 1 + dice.below(5));
        let mut table = tables::any(dice, family, count, true);
        table.rows.iter_mut().for_each(|row| row.hold = 0);
        let mut order: Vec<usize> = (0..count).collect();
        dice.shuffle(&mut order);
        match dice.below(3) {
            0 => order.sort_by_key(|&index| table.rows[index].period),
            1 => order.sort_by_key(|&index| std::cmp::Reverse(table.rows[index].period)),
            _ => {}
        }
        let first = table.rows.iter().map(|row| dice.below(row.period as usize) as u64).collect();
        Watch { table, order, first, ticks: dice.between(1, 3_000), lengths: Vec::new() }
    }

    /// Chance lengths of the first jobs.
    fn set_lengths(dice: &mut Dice, watch: &mut Watch) {
        let tasks = watch.tasks();
        let jobs = first_jobs(&tasks, dice.below(200));
        let mut length = |job: &Release| {
            let Task { least, most, .. } = tasks[job.rank];
            dice.between(least, most)
        };
        watch.lengths = jobs.iter().map(&mut length).collect();
    }

    /// Demand 3: released at chance ticks and of chance lengths no job takes more than its task's
    /// `worst`, and none takes less than its `best` that is released a deadline of its own, or more,
    /// after the first releases above.
    #[test]
    fn responses_are_within_the_figures() {
        let (mut dice, mut runs, mut held, mut overran) = (Dice::new(1), 0, 0, 0);
        while runs < 600 {
            let mut watch = any_watch(&mut dice);
            let Ok(figures) = model::figures_of_order(&watch.table, &watch.order) else {
                continue;
            };
            runs += 1;
            set_lengths(&mut dice, &mut watch);
            let tasks = watch.tasks();
            for job in watch.finished() {
                let rank = tasks.iter().position(|task| task.number == job.task).unwrap();
                let response = job.finish - job.release;
                assert!(response <= figures[rank].worst, "{watch:?}");
                overran += (response > tasks[rank].period) as u32;
                let above = tasks[..rank].iter().map(|task| task.first).max();
                let deadline = watch.table.rows[watch.order[rank]].deadline;
                if above.is_none_or(|first| job.release >= first + deadline) {
                    assert!(figures[rank].best <= response, "{watch:?}");
                    held += 1;
                }
            }
        }
        assert!(held > 10_000 && overran > 500, "{held} held, {overran} overran");
    }

    /// Request 11's run, with all released at once and all jobs at their longest: job q of a task in
    /// its busy interval is done at w(q), so that one of them takes exactly W, and the first where the
    /// deadline is not past the period.
    #[test]
    fn the_latest_responses_happen() {
        let (mut dice, mut runs, mut later) = (Dice::new(2), 0, 0);
        while runs < 600 {
            let mut watch = any_watch(&mut dice);
            let Ok(figures) = model::figures_of_order(&watch.table, &watch.order) else {
                continue;
            };
            let ranked: Vec<&Row> = watch.order.iter().map(|&row| &watch.table.rows[row]).collect();
            let finishes = |rank: usize| {
                let (above, below) = (&ranked[..rank], &ranked[rank + 1..]);
                model::finishes(watch.table.switch, ranked[rank], above, below).unwrap()
            };
            let finishes: Vec<Vec<u64>> = (0..ranked.len()).map(finishes).collect();
            let deadlines: Vec<u64> = ranked.iter().map(|row| row.deadline).collect();
            let ticks = *finishes.iter().flatten().max().unwrap();
            if ticks > 20_000 {
                continue;
            }
            runs += 1;
            (watch.ticks, watch.first) = (ticks, vec![0; deadlines.len()]);
            let finished = watch.finished();
            for (rank, task) in watch.tasks().iter().enumerate() {
                let jobs = finished.iter().filter(|job| job.task == task.number);
                let ends: Vec<u64> = jobs.map(|job| job.finish).collect();
                assert!(ends.starts_with(&finishes[rank]), "{watch:?}");
                let response = |(q, end): (usize, &u64)| end - q as u64 * task.period;
                let longest = ends.iter().enumerate().map(response).max();
                assert_eq!(longest, Some(figures[rank].worst), "{watch:?}");
                if deadlines[rank] <= task.period {
                    assert_eq!(ends[0], figures[rank].worst, "{watch:?}");
                }
                later += (ends[0] < figures[rank].worst) as u32;
            }
        }
        assert!(later > 20, "{later} tasks have their longest response later");
    }

    // ---- Refusals -----------------------------------------------------------------------

    #[test]
    fn a_hold_above_0_is_out_of_its_range() {
        let text = watch(HEAD, 35, &[]);
        let rows =
            [("8000\nhold=0\npoints=0\ntask=12", 11), ("8000\nhold=0\npoints=0\ntask=13", 20)];
        for (row, line) in rows {
            // 7 is also above the worst time of both rows.
            for (hold, number) in [("1", 3), ("7", 3), ("1000001", 3), ("01", 2), ("", 2)] {
                let held = row.replace("hold=0", &format!("hold={hold}"));
                assert_eq!(says(&changed(&text, row, &held)), refused(number, line), "{hold}");
            }
            assert_eq!(says(&changed(&text, row, &row.replace("hold=0\n", ""))), refused(1, line));
        }
        let last = changed(&text, "57000\nhold=0", "57000\nhold=1");
        assert_eq!(says(&last), refused(3, 29));
    }

    #[test]
    fn what_document_01_refuses_is_refused_as_there() {
        let text = watch(HEAD, 35, &[]);
        let refuses = |from: &str, to: &str, number, place| {
            assert_eq!(says(&changed(&text, from, to)), refused(number, place), "{from} {to}");
        };
        assert_eq!(says(""), refused(1, 1));
        refuses("board=7", "board=07", 2, 1);
        refuses("tasks=3", "tasks=17", 3, 2);
        refuses("switch=0", "switch=1001", 3, 3);
        refuses("deadline=24", "deadline=0", 3, 6);
        refuses("deadline=18", "deadline=1000001", 3, 15);
        refuses("deadline=200", "deadline=0200", 2, 24);
        refuses("deadline=200", "deadline", 1, 24);
        refuses("deadline=18\n", "", 1, 15);
        refuses("worst=2\n", "worst=19\n", 4, 16);
        refuses("best=2\n", "best=3\n", 4, 17);
        refuses("task=12", "task=11", 5, 13);
        refuses("rank=11", "rank=12", 6, 32);
        refuses("rank=12", "rank=14", 6, 31);
        refuses("rank=12", "rank=0", 3, 31);
        refuses("rank=12\n", "", 1, 33);
        // A plan's text and a review's end too soon.
        let table = text.find("rank=").unwrap();
        assert_eq!(says(&text[..table]), refused(1, 31));
        let ranked = text.find("release=").unwrap();
        assert_eq!(says(&text[..ranked]), refused(1, 34));
    }

    #[test]
    fn each_new_line_at_its_place() {
        let text = watch(HEAD, 35, &[2, 6, 17]);
        let lines: Vec<&str> = text.split_inclusive('\n').collect();
        assert_eq!(lines.len(), 41);
        let with = |place: usize, line: &str| {
            let (before, after) = (&lines[..place - 1], &lines[place..]);
            says(&[&before.concat(), line, &after.concat()].concat())
        };
        for place in 34..=41 {
            let (key, number) = lines[place - 1].trim_end().split_once('=').unwrap();
            for form in ["", "00", "+1", "-1", "-0", " 1", "1 ", "1\r", "x", "1000000000000"] {
                assert_eq!(with(place, &format!("{key}={form}\n")), refused(2, place as u64));
            }
            for form in [format!("0{number}"), format!("{number}=")] {
                assert_eq!(with(place, &format!("{key}={form}\n")), refused(2, place as u64));
            }
            let wide = format!("{key}=999999999999\n");
            assert_eq!(with(place, &wide), refused(3, place as u64));
            for line in [format!("{key}\n"), format!("{key}s={number}\n"), format!(" {key}=1\n")] {
                assert_eq!(with(place, &line), refused(1, place as u64), "{line}");
            }
            assert_eq!(says(&lines[..place - 1].concat()), refused(1, place as u64));
            // The last line of what is there has no line feed.
            let cut = lines[..place].concat();
            assert_eq!(says(cut.strip_suffix('\n').unwrap()), refused(1, place as u64));
        }
        // Gone, the line after it is met in its place; doubled, itself in the place of the next.
        for (place, missing, doubled) in [(34, 36, 37), (36, 36, 37), (37, 37, 38), (38, 38, 39)] {
            assert_eq!(with(place, ""), refused(1, missing));
            assert_eq!(with(place, &lines[place - 1].repeat(2)), refused(1, doubled));
        }
        // Of the lengths the one of 12 is gone, and then one is met by a job that cannot last it.
        assert_eq!(with(39, ""), refused(3, 39));
        assert_eq!(with(41, ""), refused(1, 41));
        assert_eq!(with(39, "length=2\nlength=2\n"), refused(3, 40));
        assert_eq!(with(41, "length=17\nlength=17\n"), refused(1, 42));
    }

    #[test]
    fn numbers_at_their_limits() {
        let text = watch(HEAD, 35, &[2, 6, 17]);
        let refuses = |from: &str, to: &str, number, place| {
            assert_eq!(says(&changed(&text, from, to)), refused(number, place), "{to}");
        };
        let accepts = |from: &str, to: &str| {
            assert!(says(&changed(&text, from, to)).is_ok(), "{to}");
        };
        let last = "release=0\nticks=35";
        refuses(last, "release=1000001\nticks=35", 3, 36);
        refuses("ticks=35", "ticks=0", 3, 37);
        refuses("ticks=35", "ticks=1000001", 3, 37);
        accepts("ticks=35", "ticks=1");
        accepts("ticks=35", "ticks=1000000");
        // From best to worst + switch, of 13: 17 to 19.
        refuses("length=17", "length=16", 3, 41);
        accepts("length=17", "length=19");
        refuses("length=17", "length=20", 3, 41);
        refuses("length=6", "length=5", 3, 40);
        refuses("length=6", "length=7", 3, 40);
        // The switch is no part of the least.
        let switched = changed(&text, "switch=0", "switch=1");
        assert!(says(&switched).is_ok());
        for (length, number) in [(1, 3), (2, 0), (3, 0), (4, 3)] {
            let outcome = says(&changed(&switched, "length=2", &format!("length={length}")));
            assert_eq!(outcome.err().map_or(0, |refusal| refusal.number), number, "{length}");
        }
    }

    #[test]
    fn so_many_lengths_and_no_more() {
        let lengths = [2; 2_049];
        let text = watch(TWO, 10, &lengths[..2_048]);
        assert!(says(&text).is_ok());
        assert_eq!(says(&watch(TWO, 10, &lengths)), refused(3, 27));
        assert_eq!(says(&(text.clone() + "length=2\n")), refused(1, 2_076));
        assert_eq!(says(text.strip_suffix("length=2\n").unwrap()), refused(1, 2_075));
        assert_eq!(says(&changed(&text, "lengths=2048", "lengths=0")), refused(1, 28));
        assert_eq!(says(&changed(&text, "lengths=2048", "lengths=2047")), refused(1, 2_075));
        assert_eq!(
            says(&changed(&watch(TWO, 10, &[]), "lengths=0", "lengths=2049")),
            refused(3, 27)
        );
    }

    #[test]
    fn the_first_jobs_by_release_and_rank() {
        let tasks = read_watch(watch(TWO, 1, &[]).as_bytes()).unwrap().tasks();
        let jobs = first_jobs(&tasks, 9);
        let found: Vec<_> = jobs.iter().map(|job| (job.tick, job.rank)).collect();
        let listed = [(1, 1), (3, 0), (7, 0), (11, 0), (11, 1), (15, 0), (19, 0), (21, 1), (23, 0)];
        assert_eq!(found, listed);
        assert_eq!(first_jobs(&tasks, 0), []);
    }

    #[test]
    fn a_late_task_is_said_once_all_is_read() {
        let late = changed(HEAD, "rank=12\nrank=11\nrank=13\n", "rank=11\nrank=13\nrank=12\n");
        assert_eq!(says(&watch(&late, 35, &[])), refused(7, 3));
        assert_eq!(says(&watch(&late, 1, &[6, 19, 2])), refused(7, 3));
        assert_eq!(says(&watch(&late, 1, &[6, 20, 2])), refused(3, 40));
        assert_eq!(says(&watch(&late, 0, &[])), refused(3, 37));
        assert_eq!(says(&(watch(&late, 35, &[]) + "x")), refused(1, 39));
        // The first from the top: below 13 the others are late too.
        let first = changed(HEAD, "rank=12\nrank=11\nrank=13\n", "rank=13\nrank=12\nrank=11\n");
        assert_eq!(says(&watch(&first, 35, &[])), refused(7, 2));
        // Under a switch of 2 a job of 6 may take three ticks of four, and 5 needs five in ten.
        let slow = changed(TWO, "switch=1", "switch=2");
        assert_eq!(says(&watch(&slow, 1, &[])), refused(7, 2));
    }

    // ---- The buffer and the program -----------------------------------------------------

    fn after(text: &str, length: usize) -> ((u64, u64, u64), Vec<u8>) {
        let mut buffer = vec![200; length];
        let Answer { number, place, length } = written(&says(text), &mut buffer);
        ((number, place, length), buffer)
    }

    #[test]
    fn lines_that_do_not_fit_are_refused_after_all_else() {
        let text = watch(HEAD, 8, &[]);
        let output = "task=12\nrelease=0\nfinish=2\ntask=11\nrelease=0\nfinish=8\n";
        let whole = output.len();
        assert_eq!(after(&text, whole), ((0, 0, whole as u64), output.into()));
        assert_eq!(after(&text, whole - 1), ((9, 0, 0), vec![200; whole - 1]));
        assert_eq!(after(&text, whole / 2), ((9, 0, 0), vec![200; whole / 2]));
        assert_eq!(after(&text, 0), ((9, 0, 0), Vec::new()));
        let longer = [output.as_bytes(), &[200, 200]].concat();
        assert_eq!(after(&text, whole + 2), ((0, 0, whole as u64), longer));
        // Nothing to write fits everywhere.
        assert_eq!(after(&watch(HEAD, 1, &[]), 0), ((0, 0, 0), Vec::new()));
        assert_eq!(after(&watch(HEAD, 1, &[]), 3), ((0, 0, 0), vec![200; 3]));
        let late = changed(&text, "rank=12\nrank=11\nrank=13\n", "rank=11\nrank=13\nrank=12\n");
        assert_eq!(after(&late, 0), ((7, 3, 0), Vec::new()));
        assert_eq!(after(&(text + "\n"), 5), ((1, 39, 0), vec![200; 5]));
    }

    /// One loop of one tick, its number and the tick of its first release as given.
    fn alone(task: u64, release: u64, ticks: u64) -> String {
        let start = format!(
            "board=1\ntasks=1\nswitch=0\ntask={task}\nperiod=400\ndeadline=400\nworst=1\nbest=1\n\
            alpha=1000\nbeta=0\nhold=0\npoints=0\nrank={task}\nrelease={release}\n"
        );
        watch(&start, ticks, &[])
    }

    fn program(input: &str) -> Vec<u8> {
        printed(watched_in_program, WATCH_TAKES, input.as_bytes())
    }

    /// A job of task 9 has 34 bytes while its times have five digits, and then 36: ten jobs and
    /// 1,811 fill the buffer. One of task 10 has 35 and 37: 32 jobs and 1,741 are a byte more.
    #[test]
    fn the_program_has_room_for_65_536_bytes() {
        let (first, last) = (100_000 - 10 * 400, 100_000 + 1_810 * 400);
        let full = program(&alone(9, first, last + 1));
        assert_eq!(full.len(), 10 * 34 + 1_811 * 36);
        assert_eq!(full.len(), WATCH_ROOM);
        assert!(full.ends_with(b"finish=824001\n"));
        assert_eq!(program(&alone(9, first, last + 400)).len(), WATCH_ROOM);
        let refusal = b"plan=0\nrefusal=9\nline=0\n";
        assert_eq!(program(&alone(9, first, last + 401)), refusal);
        let (first, last) = (100_000 - 32 * 400, 100_000 + 1_740 * 400);
        let more = says(&alone(10, first, last + 1)).unwrap();
        assert_eq!((more.len(), 32 * 35 + 1_741 * 37), (WATCH_ROOM + 1, WATCH_ROOM + 1));
        assert_eq!(program(&alone(10, first, last + 1)), refusal);
        assert_eq!(program(&alone(10, first, last)).len(), WATCH_ROOM + 1 - 37);
    }

    #[test]
    fn the_program_takes_so_many_bytes() {
        let text = watch(HEAD, 8, &[]);
        assert_eq!(program(&text), says(&text).unwrap());
        assert_eq!(program(""), b"plan=0\nrefusal=1\nline=1\n");
        assert_eq!(program(&watch(HEAD, 1, &[])), b"");
        // The line feed of a last line is the last byte that is taken, or the first that is not.
        let mut long =
            format!("{}lengths=", watch(HEAD, 8, &[]).strip_suffix("lengths=0\n").unwrap());
        while long.len() < WATCH_TAKES - 1 {
            long.push('1');
        }
        assert_eq!(program(&format!("{long}\n")), b"plan=0\nrefusal=2\nline=38\n");
        assert_eq!(program(&format!("{long}1\n")), b"plan=0\nrefusal=1\nline=38\n");
    }

    /// The longest sound text, sixteen rows of the longest numbers and all lengths, is taken whole.
    #[test]
    fn the_longest_text_is_shorter_than_what_the_program_takes() {
        let row = "task=65535\nperiod=1000000\ndeadline=1000000\nworst=1000000\nbest=1000000\n\
            alpha=100000\nbeta=200000000000\nhold=0\npoints=8\n";
        let points = 8 * "delay=1000000\nallow=1000000\n".len();
        let of_a_task = row.len() + points + "rank=65535\nrelease=1000000\n".len();
        let once = "board=65535\ntasks=16\nswitch=1000\nticks=1000000\nlengths=2048\n".len();
        let longest = once + 16 * of_a_task + 2_048 * "length=1000000\n".len();
        assert!(longest < WATCH_TAKES, "{longest}");
    }

    // ---- The stored examples ------------------------------------------------------------

    /// Its table is that of the plan, and its jobs are those of `HEATER`, whose rows have other bests.
    #[test]
    fn the_heater_overruns_into_its_next_release() {
        let text = include_str!("../../examples/slow-heater.watch");
        let table = include_str!("../../examples/slow-heater.table");
        let run =
            "rank=91\nrank=92\nrank=93\nrelease=0\nrelease=0\nrelease=0\nticks=200\nlengths=0\n";
        assert_eq!(text, format!("{table}{run}"));
        assert_eq!(says(text), says(&watch(HEATER, 200, &[])));
        assert_eq!(says(text), Ok(include_bytes!("../../examples/slow-heater.jobs").to_vec()));
    }

    /// Jobs of 71, 72 and 73 last at most 6,000, 8,000 and 9,000 ticks. The releases of each round
    /// come 10,000 ticks closer to each other than those of the round before, and at 810,000 all
    /// three are one: only there does a job wait for another.
    #[test]
    fn the_releases_meet_at_last() {
        let text = include_str!("../../examples/late-alignment.watch");
        let jobs = [
            (73, 0, 7_500),
            (72, 30_000, 37_000),
            (71, 60_000, 65_000),
            (73, 270_000, 279_000),
            (72, 290_000, 298_000),
            (71, 310_000, 316_000),
            (73, 540_000, 549_000),
            (72, 550_000, 558_000),
            (71, 560_000, 566_000),
            (71, 810_000, 816_000),
            (72, 810_000, 824_000),
            (73, 810_000, 833_000),
        ];
        assert_eq!(says(text), prints(&jobs));
        assert_eq!(says(text), Ok(include_bytes!("../../examples/late-alignment.jobs").to_vec()));
        // The figures of the order, by rank: the best lines are those of the first round, the worst
        // lines those of the last.
        let watch = read_watch(text.as_bytes()).unwrap();
        let figures = model::figures_of_order(&watch.table, &watch.order).unwrap();
        let lines: Vec<_> = figures.iter().map(|figures| (figures.best, figures.worst)).collect();
        assert_eq!(lines, [(5_000, 6_000), (7_000, 14_000), (7_500, 23_000)]);
    }
}
