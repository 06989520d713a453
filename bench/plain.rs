//! The plain code that the program and the running queue are measured against, with ordinary data and nothing proved.
//!
//! `plain plan NAME` writes the plan of this name, and `plain large` a plan of one mebibyte. `plain run NAME` runs the named plan from
//! memory and prints the nanoseconds of the run and a sum over the report's bytes, by which the two reports are compared; `plain
//! report NAME` prints the report, and `plain make NAME` makes the plan alone. The names are those of `named_plan`; a number after
//! a name is how many turns the plan has.
//! `plain gen NUMBER JOBS` makes the plan of a number and runs it, and prints the nanoseconds of both and a sum over what its report says
//! after the last turn; `plain summary NUMBER JOBS` prints that text.
//! `plain check first` and `plain check last` judge a history with a million entries, or with as many as a number after them says, in which
//! many callers wait and are served from the first of the line on, or from the last. They count along the line who is among its first.
//! `plain requests` writes requests of 64 tenants, of one mebibyte, and `plain limit` replies to them by a loop over a table of tenants, and
//! prints the nanoseconds and a sum over the text; `plain replies` prints that text.
//! `plain free`, `plain pairs` and `plain leaves` make the rounds of the running queue on atomic words, `plain leave` and
//! `plain leave-behind` those of a semaphore whose waiter looks and leaves; `plain wake-never`, `plain wake-guarded` and `plain wake-called`
//! those of a wait that is served, by one who wakes nobody, who asks first whether anybody sleeps, or who makes the system call in any
//! case. `ROUNDS` after them is how many.

use std::collections::{HashMap, VecDeque};
use std::fmt::Write as _;
use std::io::Write as _;
use std::sync::atomic::{AtomicU64, Ordering::SeqCst};
use std::time::Instant;

const MOST_TURNS: u32 = 40_000;
const JOBS: u32 = 4_096;
const RESOURCES: u32 = 64;
const MOST_STEPS: usize = 64;
const MOST_RETRIES: u32 = 64;
const LARGE: usize = 1 << 20;

#[derive(Clone, Copy)]
enum Step {
    Take(usize),
    Give(usize),
    Work(u32),
}

struct Job {
    name: String,
    steps: Vec<Step>,
    deadline: Option<u32>,
    within: Option<u32>,
    retry: u32,
}

struct Plan {
    turns: u32,
    resources: Vec<(String, u32)>,
    jobs: Vec<Job>,
}

/// A plan with as many jobs and resources as a plan may have; `job` tells the steps of each job, and its deadline.
fn plan(turns: u32, size: u32, job: impl Fn(u32) -> (Vec<Step>, Option<u32>)) -> Plan {
    let resources = (0..RESOURCES).map(|r| (format!("r{r:02}"), size)).collect();
    let jobs = (0..JOBS)
        .map(|j| {
            let (steps, deadline) = job(j);
            Job { name: format!("j{j}"), steps, deadline, within: None, retry: 0 }
        })
        .collect();
    Plan { turns, resources, jobs }
}

fn resource_of(j: u32) -> usize {
    (j % RESOURCES) as usize
}

/// Each resource is wanted by 64 jobs, every other job has a deadline, and most of the jobs wait through most of the turns.
fn limits() -> Plan {
    plan(MOST_TURNS, 2, |j| {
        let first = resource_of(j);
        let second = resource_of(j / RESOURCES + j);
        let mut steps = vec![Step::Work(1 + j % 7), Step::Take(first), Step::Work(400 + j % 600), Step::Give(first)];
        if second != first {
            steps.extend([Step::Take(second), Step::Work(1 + j % 90)]);
        }
        (steps, (j % 2 == 1).then_some(1_000 + 9 * j))
    })
}

/// One job for each resource holds its permit and works through all turns; the others wait for it, until their deadline.
fn held(deadline: Option<u32>) -> Plan {
    plan(MOST_TURNS, 1, |j| {
        let mut steps = vec![Step::Take(resource_of(j))];
        if j < RESOURCES {
            steps.extend([Step::Work(1_000); 40]);
            return (steps, None);
        }
        (steps, deadline)
    })
}

/// The same, but each of the others waits for ten turns at a time, and tries again as often as a job may.
fn retries() -> Plan {
    let mut plan = held(None);
    plan.turns = 700;
    for job in &mut plan.jobs[RESOURCES as usize..] {
        (job.within, job.retry) = (Some(10), MOST_RETRIES);
    }
    plan
}

/// All jobs work through all turns, which are as many as fit the bytes of a plan.
fn work() -> Plan {
    plan(16_000, 1, |_| (vec![Step::Work(1_000); 16], None))
}

/// All jobs make all their steps in turn 0.
fn ended() -> Plan {
    plan(MOST_TURNS, 1, |j| (vec![Step::Take(resource_of(j)), Step::Give(resource_of(j))], None))
}

/// In each turn each permit goes to the next of 64 jobs, of which each takes it six times.
fn moving() -> Plan {
    let cycle = |r| [Step::Take(r), Step::Work(1), Step::Give(r)];
    plan(380, 1, |j| (cycle(resource_of(j)).repeat(6), None))
}

/// Many events in three turns, so that the reading of the plan and the making of the report are the most of a run.
fn events() -> Plan {
    plan(3, 1, |j| ([Step::Take(resource_of(j)), Step::Give(resource_of(j))].repeat(7), Some(3)))
}

/// Takes and gives with no work between them, in one turn. Nobody waits; four jobs that follow one another use the same resource, so that
/// four workers come to it at the same time.
fn takes() -> Plan {
    plan(3, 64, |j| ([Step::Take(resource_of(j / 4)), Step::Give(resource_of(j / 4))].repeat(7), None))
}

fn named_plan(name: &str) -> Option<Plan> {
    match name {
        "limits" => Some(limits()),
        "wait" => Some(held(None)),
        "work" => Some(work()),
        "ended" => Some(ended()),
        "gaveup" => Some(held(Some(10))),
        "retries" => Some(retries()),
        "moving" => Some(moving()),
        "events" => Some(events()),
        "takes" => Some(takes()),
        _ => None,
    }
}

/// The linear congruence that the C standard gives as an example for `rand`, of which the upper 15 bits are drawn.
struct Draws {
    state: u32,
}

impl Draws {
    fn draw(&mut self) -> u32 {
        self.state = self.state.wrapping_mul(1_103_515_245).wrapping_add(12_345) & 0x7fff_ffff;
        self.state >> 16
    }
}

/// The plan of a number, as `cqs gen` makes it. Its pool of one element is as good as a semaphore of one permit: the summary names no
/// element.
fn generated(number: u32, jobs: u32) -> Plan {
    let mut draws = Draws { state: number };
    let jobs: Vec<Job> = (0..jobs)
        .map(|j| {
            let (first, second, third) = (draws.draw(), draws.draw(), draws.draw());
            let mut steps = vec![Step::Work(first % 5 + 1), Step::Take(0)];
            if second % 2 == 1 {
                steps.push(Step::Take(1));
            }
            steps.push(Step::Work(second % 4 + 1));
            let deadline = (third % 3 == 0).then_some(third % 30 + 1);
            Job { name: format!("j{j}"), steps, deadline, within: None, retry: 0 }
        })
        .collect();
    Plan { turns: 8 * jobs.len() as u32 + 16, resources: vec![("db".into(), 2), ("buf".into(), 1)], jobs }
}

fn write_plan(plan: &Plan) -> String {
    let Plan { turns, resources, jobs } = plan;
    let version = if jobs.iter().any(|job| job.within.is_some()) { 2 } else { 1 };
    let mut text = format!("version = {version}\nturns = {turns}\n");
    for (name, size) in resources {
        let _ = write!(text, "[semaphore.{name}]\nsize = {size}\n");
    }
    for job in jobs {
        let steps: Vec<String> = job
            .steps
            .iter()
            .map(|step| match step {
                Step::Take(r) => format!("\"take {}\"", resources[*r].0),
                Step::Give(r) => format!("\"give {}\"", resources[*r].0),
                Step::Work(n) => format!("\"work {n}\""),
            })
            .collect();
        let _ = write!(text, "[[job]]\nname = \"{}\"\nsteps = [{}]\n", job.name, steps.join(", "));
        if let Some(deadline) = job.deadline {
            let _ = writeln!(text, "deadline = {deadline}");
        }
        if let Some(within) = job.within {
            let _ = writeln!(text, "within = {within}\nretry = {}", job.retry);
        }
    }
    text
}

/// A plan of exactly one mebibyte, for readers: every eighth job has the most steps that a job may have, and the others
/// as many as leave each job its share of the bytes.
fn large_plan() -> String {
    let mut text = String::from("version = 1\nturns = 32784\n");
    for r in 0..RESOURCES {
        let _ = write!(text, "[semaphore.r{r:02}]\nsize = 2\n");
    }
    let start = text.len();
    for j in 0..JOBS as usize {
        let _ = write!(text, "[[job]]\nname = \"j{j:04}\"\nsteps = [");
        let share = start + (LARGE - start) * (j + 1) / JOBS as usize;
        let mut step = 0;
        while step < MOST_STEPS && (step == 0 || j % 8 == 0 || text.len() + 16 < share) {
            let r = (j + step / 3 * 7) % RESOURCES as usize;
            let separator = if step == 0 { "" } else { ", " };
            let _ = match step % 3 {
                0 => write!(text, "{separator}\"take r{r:02}\""),
                1 => write!(text, "{separator}\"work {}\"", 1 + (j + step) % 1000),
                _ => write!(text, "{separator}\"give r{r:02}\""),
            };
            step += 1;
        }
        text.push_str("]\n");
    }
    while text.len() < LARGE {
        text.push('\n');
    }
    text
}

#[derive(Clone, Copy, PartialEq)]
enum Wait {
    InLine,
    Served,
    Gone,
}

struct Semaphore {
    free: u32,
    line: VecDeque<usize>,
    waits: Vec<Wait>,
    inside: usize,
    ready: usize,
}

impl Semaphore {
    fn take(&mut self) -> Option<usize> {
        if self.free > 0 {
            self.free -= 1;
            return None;
        }
        self.waits.push(Wait::InLine);
        self.line.push_back(self.waits.len() - 1);
        self.inside += 1;
        Some(self.waits.len() - 1)
    }

    fn give(&mut self) -> Option<usize> {
        while let Some(wait) = self.line.pop_front() {
            if self.waits[wait] == Wait::InLine {
                self.waits[wait] = Wait::Served;
                self.inside -= 1;
                self.ready += 1;
                return Some(wait);
            }
        }
        self.free += 1;
        None
    }
}

#[derive(Clone, Copy)]
enum Progress {
    Ready(usize),
    Working(usize, u32),
    Waiting(usize, usize, usize, u32),
    Done,
    GaveUp,
    Late,
}

struct Run<'a> {
    resources: &'a [(String, u32)],
    semaphores: Vec<Semaphore>,
    report: String,
}

impl Run<'_> {
    fn give(&mut self, turn: u32, job: &Job, r: usize) {
        let name = &self.resources[r].0;
        let _ = match self.semaphores[r].give() {
            None => writeln!(self.report, "{turn} {} gives {name} free", job.name),
            Some(wait) => writeln!(self.report, "{turn} {} gives {name} sent {wait}", job.name),
        };
    }

    fn give_all(&mut self, turn: u32, job: &Job, holds: &mut Vec<usize>) {
        for r in holds.drain(..) {
            self.give(turn, job, r);
        }
    }

    fn turn(&mut self, turn: u32, job: &Job, progress: &mut Progress, used: &mut u32, holds: &mut Vec<usize>) {
        let mut at = match *progress {
            Progress::Ready(at) => at,
            Progress::Working(_, until) if turn < until => return,
            Progress::Working(at, _) => at + 1,
            Progress::Waiting(at, r, wait, since) => {
                let name = &self.resources[r].0;
                let served = self.semaphores[r].waits[wait] == Wait::Served;
                let due = job.deadline.is_some_and(|deadline| deadline <= turn);
                let over = due || job.within.is_some_and(|within| since + within <= turn);
                if !over && !served {
                    return;
                }
                if served {
                    self.semaphores[r].ready -= 1;
                    holds.push(r);
                } else {
                    self.semaphores[r].waits[wait] = Wait::Gone;
                    self.semaphores[r].inside -= 1;
                }
                if !over {
                    let _ = writeln!(self.report, "{turn} {} served {name} {wait}", job.name);
                    at + 1
                } else if !served && !due && *used < job.retry {
                    *used += 1;
                    let _ = writeln!(self.report, "{turn} {} retries {name} {wait}", job.name);
                    at
                } else {
                    let word = if served { "late" } else { "gaveup" };
                    let _ = writeln!(self.report, "{turn} {} {word} {name} {wait}", job.name);
                    *progress = if served { Progress::Late } else { Progress::GaveUp };
                    self.give_all(turn, job, holds);
                    return;
                }
            }
            Progress::Done | Progress::GaveUp | Progress::Late => return,
        };
        while let Some(step) = job.steps.get(at) {
            match *step {
                Step::Work(n) => {
                    *progress = Progress::Working(at, turn + n);
                    return;
                }
                Step::Take(r) => {
                    let name = &self.resources[r].0;
                    if let Some(wait) = self.semaphores[r].take() {
                        let _ = writeln!(self.report, "{turn} {} waits {name} {wait}", job.name);
                        *progress = Progress::Waiting(at, r, wait, turn);
                        return;
                    }
                    let _ = writeln!(self.report, "{turn} {} takes {name}", job.name);
                    holds.push(r);
                }
                Step::Give(r) => {
                    if let Some(place) = holds.iter().position(|held| *held == r) {
                        holds.remove(place);
                    }
                    self.give(turn, job, r);
                }
            }
            at += 1;
        }
        self.give_all(turn, job, holds);
        let _ = writeln!(self.report, "{turn} {} done", job.name);
        *progress = Progress::Done;
    }
}

fn run(plan: &Plan) -> String {
    run_and_mark(plan).0
}

/// What the report says after the last turn.
fn summary(plan: &Plan) -> String {
    let (mut report, end) = run_and_mark(plan);
    report.split_off(end)
}

/// The report, and where its lines of the turns end.
fn run_and_mark(plan: &Plan) -> (String, usize) {
    let Plan { turns, resources, jobs } = plan;
    let semaphores = resources
        .iter()
        .map(|(_, size)| Semaphore { free: *size, line: VecDeque::new(), waits: Vec::new(), inside: 0, ready: 0 })
        .collect();
    let mut run = Run { resources, semaphores, report: String::new() };
    let mut progress = vec![Progress::Ready(0); jobs.len()];
    let mut used = vec![0; jobs.len()];
    let mut holds: Vec<Vec<usize>> = vec![Vec::new(); jobs.len()];
    for turn in 0..*turns {
        for (i, job) in jobs.iter().enumerate() {
            run.turn(turn, job, &mut progress[i], &mut used[i], &mut holds[i]);
        }
    }
    let end = run.report.len();
    for (r, (name, _)) in resources.iter().enumerate() {
        let held = holds.iter().flatten().filter(|held| **held == r).count() + run.semaphores[r].ready;
        let (free, line) = (run.semaphores[r].free, run.semaphores[r].inside);
        let _ = writeln!(run.report, "end {name} free {free} held {held} line {line}");
    }
    let count = |test: fn(&Progress) -> bool| progress.iter().filter(|p| test(p)).count();
    let done = count(|p| matches!(p, Progress::Done));
    let gaveup = count(|p| matches!(p, Progress::GaveUp));
    let late = count(|p| matches!(p, Progress::Late));
    let unfinished = jobs.len() - done - gaveup - late;
    let _ = writeln!(run.report, "total done {done} gaveup {gaveup} late {late} unfinished {unfinished}");
    (run.report, end)
}

/// From this suspend counter on no caller draws a number.
const LIMIT: u64 = 1 << 20;

/// Words that change often stand 16 apart, as in the running queue. The cells stand after them in a row.
const SUSPENDS: usize = 16;
const RESUMES: usize = 32;
const STATE: usize = 48;
const CELLS: usize = 112;

/// So many cells are settled before their memory may be used again.
const SEGMENT: u64 = 32;

/// The state's word is raised by this much.
const BIAS: u64 = 1 << 32;

const EMPTY: u64 = 0;
const WAITER: u64 = 1;
const VALUE: u64 = 2;
const TAKEN: u64 = 3;
const RESUMED: u64 = 5;
const CANCELLING: u64 = 6;
const DELEGATED: u64 = 7;
const CANCELLED: u64 = 8;
const REFUSED: u64 = 9;

/// A cell's word: its number, its state, and 20 bits of what was left in it.
fn cell(number: u64, state: u64, payload: u64) -> u64 {
    number << 24 | state << 20 | payload
}

/// The semaphore on atomic words: the steps of the running queue, written plainly.
struct Words {
    words: Vec<AtomicU64>,
    /// How many cells are settled of each 32.
    settled: Vec<AtomicU64>,
}

extern "C" {
    fn syscall(number: i64, ...) -> i64;
}

/// Has the kernel wake one thread that sleeps on the lower half of the word, if there is one.
fn wake_one(word: &AtomicU64) {
    const FUTEX: i64 = 202;
    const WAKE_IN_PROCESS: i32 = 129;
    // SAFETY: the kernel looks for those who sleep at the address, and does no more with it.
    unsafe {
        syscall(FUTEX, word.as_ptr() as *const u32, WAKE_IN_PROCESS, 1i32);
    }
}

/// How many threads sleep, with cache lines for itself.
#[repr(align(128))]
struct Asleep {
    count: AtomicU64,
}

impl Words {
    #[inline(always)]
    fn new(permits: u64) -> Words {
        let word = |place| match place {
            STATE => BIAS + permits,
            CELLS.. => cell((place - CELLS) as u64, EMPTY, 0),
            _ => 0,
        };
        Words {
            words: (0..CELLS + LIMIT as usize + 1).map(|place| AtomicU64::new(word(place))).collect(),
            settled: (0..=LIMIT / SEGMENT).map(|_| AtomicU64::new(0)).collect(),
        }
    }

    /// Counts the cell of this number among those that are settled.
    fn count(&self, number: u64) {
        self.settled[(number / SEGMENT) as usize].fetch_add(1, SeqCst);
    }

    fn may_draw(&self) -> bool {
        self.words[SUSPENDS].load(SeqCst) < LIMIT
    }

    fn exchange(&self, number: u64, from: u64, to: u64) -> bool {
        let word = &self.words[CELLS + number as usize];
        word.compare_exchange(cell(number, from, 0), cell(number, to, 0), SeqCst, SeqCst).is_ok()
    }

    /// The number of the wait, or none where a resume had left its value.
    fn suspend(&self) -> Option<u64> {
        let number = self.words[SUSPENDS].fetch_add(1, SeqCst);
        if self.exchange(number, EMPTY, WAITER) {
            return Some(number);
        }
        if self.exchange(number, VALUE, TAKEN) {
            self.count(number);
        }
        None
    }

    /// Serves the wait of this number, if somebody stands there, and wakes the one so.
    #[inline(always)]
    fn serve(&self, number: u64, wake: impl Fn(&AtomicU64)) -> bool {
        let is_served = self.exchange(number, WAITER, RESUMED);
        if is_served {
            wake(&self.words[CELLS + number as usize]);
        }
        is_served
    }

    #[inline(always)]
    fn resume_and(&self, wake: impl Fn(&AtomicU64)) {
        let number = self.words[RESUMES].fetch_add(1, SeqCst);
        if !self.serve(number, &wake) && !self.exchange(number, EMPTY, VALUE) {
            self.serve(number, &wake);
        }
    }

    fn resume(&self) {
        self.resume_and(|_| ());
    }

    /// The number of the wait, or none where a permit came at once.
    fn acquire(&self) -> Option<u64> {
        if self.words[STATE].fetch_sub(1, SeqCst) > BIAS {
            return None;
        }
        self.suspend()
    }

    #[inline(always)]
    fn release_and(&self, wake: impl Fn(&AtomicU64)) {
        if self.words[STATE].fetch_add(1, SeqCst) < BIAS {
            self.resume_and(wake);
        }
    }

    fn release(&self) {
        self.release_and(|_| ());
    }

    /// The waiter leaves the line, unless it was served. It answers whether a resume had left its value to it.
    fn cancel(&self, number: u64) -> bool {
        if !self.exchange(number, WAITER, CANCELLING) {
            return false;
        }
        let end = if self.words[STATE].fetch_add(1, SeqCst) < BIAS { CANCELLED } else { REFUSED };
        let is_first = self.exchange(number, CANCELLING, end);
        let is_left_a_value = !is_first && self.exchange(number, DELEGATED, end);
        if is_left_a_value || end == CANCELLED {
            self.count(number);
        }
        is_left_a_value
    }

    fn is_served(&self, number: u64) -> bool {
        let is_served = self.words[CELLS + number as usize].load(SeqCst) >> 20 & 15 == RESUMED;
        if is_served {
            self.count(number);
        }
        is_served
    }
}

/// What a caller holds.
struct Caller {
    held: u32,
}

/// A permit is free: it is taken and given back.
fn free_round(words: &Words, caller: &mut Caller) {
    if words.may_draw() && words.acquire().is_none() {
        caller.held += 1;
        if caller.held > 0 {
            caller.held -= 1;
            words.release();
        }
    }
}

/// The caller that holds the one permit waits for it, gives it back, and is served.
fn pair_round(words: &Words, caller: &mut Caller) {
    woken_round(words, caller, |_| ());
}

/// The same, in which it wakes so the one whom it serves.
#[inline(always)]
fn woken_round(words: &Words, caller: &mut Caller, wake: impl Fn(&AtomicU64)) {
    if !words.may_draw() {
        return;
    }
    let Some(number) = words.acquire() else {
        caller.held += 1;
        return;
    };
    if caller.held > 0 {
        caller.held -= 1;
        words.release_and(wake);
    }
    if words.is_served(number) {
        caller.held += 1;
    }
}

/// The caller that holds the one permit waits for it, and leaves the line again.
fn leave_round(words: &Words, caller: &mut Caller) {
    if !words.may_draw() {
        return;
    }
    let Some(number) = words.acquire() else {
        caller.held += 1;
        return;
    };
    if words.cancel(number) {
        words.resume();
    }
}

/// No permit is free: the caller waits in line, looks once, and leaves.
fn look_and_leave_round(words: &Words, caller: &mut Caller) {
    if !words.may_draw() {
        return;
    }
    let Some(number) = words.acquire() else {
        caller.held += 1;
        return;
    };
    if !words.is_served(number) && words.cancel(number) {
        words.resume();
    }
}

/// So many waiters stand in line where rounds are made behind them.
const LIVE: u64 = 1000;

/// Times rounds of one kind, after the caller has taken so often, and prints their nanoseconds, how many there were, and what the
/// caller holds at the end.
fn time_rounds(name: &str, rounds: u64, taken: u64, round: impl Fn(&Words, &mut Caller)) {
    let words = Words::new(1);
    let mut caller = Caller { held: 0 };
    for _ in 0..taken {
        if words.acquire().is_none() {
            caller.held += 1;
        }
    }
    let start = Instant::now();
    for _ in 0..rounds {
        round(&words, &mut caller);
    }
    let nanoseconds = start.elapsed().as_nanos();
    let _ = writeln!(std::io::stdout(), "{name} {nanoseconds} rounds {rounds} held {}", caller.held);
}

/// Times rounds of a wait that is served, in which nobody sleeps; whom a serve wakes, the word says. The compiler isn't shown that nobody
/// sleeps.
fn time_wakes(name: &str, rounds: u64) {
    let asleep = Asleep { count: AtomicU64::new(0) };
    let count = &std::hint::black_box(&asleep).count;
    let guarded = |word: &AtomicU64| {
        if count.load(SeqCst) > 0 {
            wake_one(word);
        }
    };
    match name {
        "wake-never" => time_rounds(name, rounds, 1, pair_round),
        "wake-guarded" => time_rounds(name, rounds, 1, |words, caller| woken_round(words, caller, guarded)),
        _ => time_rounds(name, rounds, 1, |words, caller| woken_round(words, caller, wake_one)),
    }
}

/// Times the making of a text, and prints its nanoseconds and a sum over it.
fn time_text(name: &str, make: impl FnOnce() -> String) {
    let start = Instant::now();
    let text = make();
    let nanoseconds = start.elapsed().as_nanos();
    let sum: u64 = text.bytes().fold(0, |sum, byte| sum.wrapping_mul(31).wrapping_add(u64::from(byte)));
    let _ = writeln!(std::io::stdout(), "{name} {nanoseconds} bytes {} sum {sum}", text.len());
}

/// The entries that the judged histories have.
#[derive(Clone, Copy)]
enum Entry {
    TakeNow,
    TakeDoor(u32),
    Enter(u32, usize),
    GiveSent,
    Deliver(usize),
    LookGranted(u32, usize),
}

/// The history of `cqs_bench check`, in which so many callers wait.
fn history(callers: usize, last: bool) -> Vec<Entry> {
    let mut entries = vec![Entry::TakeNow; callers];
    for wait in 0..callers {
        entries.push(Entry::TakeDoor(1));
        entries.push(Entry::Enter(1, wait));
    }
    entries.extend(vec![Entry::GiveSent; callers]);
    for place in 0..callers {
        let wait = if last { callers - 1 - place } else { place };
        entries.push(Entry::Deliver(wait));
        entries.push(Entry::LookGranted(1, wait));
    }
    entries
}

/// What a semaphore is after the entries so far, with its line as a list.
struct Judge {
    free: usize,
    way: usize,
    held: usize,
    door: Vec<u32>,
    line: VecDeque<(usize, u32)>,
    /// Who was served by each wait, and hasn't looked.
    served: Vec<Option<u32>>,
}

impl Judge {
    fn new(permits: usize) -> Judge {
        Judge { free: permits, way: 0, held: 0, door: Vec::new(), line: VecDeque::new(), served: Vec::new() }
    }

    fn enter(&mut self, caller: u32, wait: usize) -> Option<()> {
        let place = self.door.iter().position(|at_door| *at_door == caller)?;
        if wait != self.served.len() {
            return None;
        }
        self.door.swap_remove(place);
        self.line.push_back((wait, caller));
        self.served.push(None);
        Some(())
    }

    fn deliver(&mut self, wait: usize) -> Option<()> {
        let place = self.line.iter().take(self.way).position(|(waiting, _)| *waiting == wait)?;
        let (_, caller) = self.line.remove(place)?;
        self.served[wait] = Some(caller);
        self.way -= 1;
        self.held += 1;
        Some(())
    }

    /// Whether the entry may come, and what is then.
    fn admits(&mut self, entry: Entry) -> bool {
        match entry {
            Entry::TakeNow if self.free > 0 => {
                self.free -= 1;
                self.held += 1;
            }
            Entry::TakeDoor(caller) if self.free == 0 => self.door.push(caller),
            Entry::Enter(caller, wait) => return self.enter(caller, wait).is_some(),
            Entry::GiveSent if self.held > 0 && self.way < self.door.len() + self.line.len() => {
                self.held -= 1;
                self.way += 1;
            }
            Entry::Deliver(wait) => return self.deliver(wait).is_some(),
            Entry::LookGranted(caller, wait) if self.served.get(wait) == Some(&Some(caller)) => self.served[wait] = None,
            _ => return false,
        }
        true
    }
}

/// Times the judge on such a history of at most so many entries.
fn time_check(last: bool, most: usize) {
    let callers = most / 6;
    let entries = history(callers, last);
    let start = Instant::now();
    let mut judge = Judge::new(callers);
    let legal = entries.iter().all(|entry| judge.admits(*entry));
    let nanoseconds = start.elapsed().as_nanos();
    assert!(legal);
    let _ = writeln!(std::io::stdout(), "check {nanoseconds} entries {} held {}", entries.len(), judge.held);
}

const TENANTS: usize = 64;

/// Where a client of a tenant is.
#[derive(Clone, Copy, PartialEq)]
enum Place {
    Out,
    Waiting(u64),
    Served,
    Holding,
}

/// A tenant: its free permits, the next number to wait under, who waits, and where each client is.
struct Tenant {
    free: u32,
    next: u64,
    line: VecDeque<(u64, u32)>,
    places: HashMap<u32, Place>,
}

impl Tenant {
    /// Replies to a request, behind the request and a space.
    fn reply(&mut self, client: u32, verb: &str, text: &mut String) {
        let place = self.places.get(&client).copied().unwrap_or(Place::Out);
        let then = match (verb, place) {
            ("enter", Place::Out) if self.free > 0 => {
                self.free -= 1;
                text.push_str("now");
                Place::Holding
            }
            ("enter", Place::Out) => {
                let number = self.next;
                self.next += 1;
                self.line.push_back((number, client));
                let _ = write!(text, "waits {number}");
                Place::Waiting(number)
            }
            ("look", Place::Served) => {
                text.push_str("granted");
                Place::Holding
            }
            ("look", Place::Waiting(_)) => {
                text.push_str("pending");
                place
            }
            ("quit", Place::Served) => {
                text.push_str("late");
                Place::Holding
            }
            ("quit", Place::Waiting(number)) => {
                self.line.retain(|(other, _)| *other != number);
                text.push_str("gone");
                Place::Out
            }
            ("leave", Place::Holding) => {
                match self.line.pop_front() {
                    Some((number, served)) => {
                        self.places.insert(served, Place::Served);
                        let _ = write!(text, "sent {number}");
                    }
                    None => {
                        self.free += 1;
                        text.push_str("freed");
                    }
                }
                Place::Out
            }
            _ => {
                text.push_str("refused");
                place
            }
        };
        if then != place {
            self.places.insert(client, then);
        }
    }
}

/// The request at a place: the verb, the tenant, the client. They are mixed as by chance.
fn request_at(at: u32) -> (&'static str, usize, u32) {
    let drawn = at.wrapping_mul(2_654_435_761);
    let verb = match (drawn >> 20) % 8 {
        0 | 2 | 4 => "enter",
        1 | 5 => "look",
        6 => "quit",
        _ => "leave",
    };
    (verb, (drawn >> 8) as usize % TENANTS, (drawn >> 14) % 6)
}

/// All requests, with their text: as many as it has room for.
fn requests() -> (Vec<(&'static str, usize, u32)>, String) {
    let mut text = format!("tenants{}\n", " 2".repeat(TENANTS));
    let mut all = Vec::new();
    for at in 0.. {
        let (verb, tenant, client) = request_at(at);
        let line = format!("{verb} {tenant} {client}\n");
        if text.len() + line.len() > LARGE {
            return (all, text);
        }
        text.push_str(&line);
        all.push((verb, tenant, client));
    }
    unreachable!()
}

/// Replies to all of them, one after the other.
fn replies(requests: &[(&'static str, usize, u32)]) -> String {
    let mut tenants: Vec<Tenant> = Vec::new();
    tenants.resize_with(TENANTS, || Tenant { free: 2, next: 0, line: VecDeque::new(), places: HashMap::new() });
    let mut text = String::new();
    for (verb, tenant, client) in requests {
        let _ = write!(text, "{verb} {tenant} {client} ");
        tenants[*tenant].reply(*client, verb, &mut text);
        text.push('\n');
    }
    text
}

/// Does what a command with a number and a count of jobs says; tells whether they are such.
fn with_number(command: &str, number: &str, jobs: &str) -> bool {
    let (Ok(number), Ok(jobs)) = (number.parse(), jobs.parse()) else {
        return false;
    };
    match command {
        "gen" => time_text("gen", || summary(&generated(number, jobs))),
        _ => print!("{}", summary(&generated(number, jobs))),
    }
    true
}

/// Does what a command with a plan's name says; tells whether there are such a command and such a plan.
fn with_plan(command: &str, name: &str, turns: Option<u32>) -> bool {
    let Some(mut plan) = named_plan(name) else {
        return false;
    };
    plan.turns = turns.unwrap_or(plan.turns);
    match command {
        "plan" => print!("{}", write_plan(&plan)),
        "report" => print!("{}", run(&plan)),
        "run" => time_text("run", || run(&plan)),
        "make" => println!("made {}", plan.jobs.len()),
        _ => return false,
    }
    true
}

fn main() {
    let words: Vec<String> = std::env::args().skip(1).collect();
    let words: Vec<&str> = words.iter().map(String::as_str).collect();
    let rounds = || words.get(1).and_then(|text| text.parse().ok()).unwrap_or(LIMIT);
    let known = match words[..] {
        ["large"] => {
            print!("{}", large_plan());
            true
        }
        ["requests"] => {
            print!("{}", requests().1);
            true
        }
        ["replies"] => {
            print!("{}", replies(&requests().0));
            true
        }
        ["limit"] => {
            let (all, _) = requests();
            time_text("limit", || replies(&all));
            true
        }
        ["free", ..] => {
            time_rounds("free", rounds(), 0, free_round);
            true
        }
        ["pairs", ..] => {
            time_rounds("pairs", rounds(), 0, pair_round);
            true
        }
        ["leaves", ..] => {
            time_rounds("leaves", rounds(), 0, leave_round);
            true
        }
        ["leave", ..] => {
            time_rounds("leave", rounds(), 1, look_and_leave_round);
            true
        }
        ["leave-behind", ..] => {
            time_rounds("leave-behind", rounds(), 1 + LIVE, look_and_leave_round);
            true
        }
        [name @ ("wake-never" | "wake-guarded" | "wake-called"), ..] => {
            time_wakes(name, rounds());
            true
        }
        ["check", order @ ("first" | "last"), ..] => {
            time_check(order == "last", words.get(2).and_then(|text| text.parse().ok()).unwrap_or(1_000_000));
            true
        }
        [command @ ("gen" | "summary"), number, jobs] => with_number(command, number, jobs),
        [command, name] => with_plan(command, name, None),
        [command, name, turns] => with_plan(command, name, turns.parse().ok()),
        _ => false,
    };
    if !known {
        let usage = "usage: plain plan | make | run | report NAME [TURNS]; or plain gen | summary NUMBER JOBS; or plain large | requests | limit | replies; or plain check first | last [ENTRIES]; or plain free | pairs | leaves | leave | leave-behind | wake-never | wake-guarded | wake-called [ROUNDS]";
        let _ = writeln!(std::io::stderr(), "{usage}");
        std::process::exit(2);
    }
}
