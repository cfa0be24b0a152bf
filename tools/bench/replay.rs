//! A plain program for `replay STRATEGY T J S` and `load SEED COUNT`: what a
//! Rust programmer writes in an afternoon from the event table, over a
//! BTreeMap.  It reads all of stdin, checks every line, then runs and writes.
//! All events, acts and steps of the table are there, jobs and joins too.
//!
//! rustc --edition 2021 -C opt-level=3 tools/bench/replay.rs -o FOLDER/replay
use std::collections::{BTreeMap, VecDeque};
use std::io::{Read, Write};

pub const MAX_NANOS: u128 = 9223372036854775807000000;
pub const MAX_INPUT: usize = 1 << 24;

/// The random numbers of `mono_combine`.
pub struct FastRand {
    one: u32,
    two: u32,
}
impl FastRand {
    pub fn new(seed: u64) -> FastRand {
        let low = seed as u32;
        FastRand { one: (seed >> 32) as u32, two: if low == 0 { 1 } else { low } }
    }
    pub fn next(&mut self) -> u32 {
        let (mut a, b) = (self.one, self.two);
        a ^= a << 17;
        a = a ^ b ^ (a >> 7) ^ (b >> 16);
        self.one = b;
        self.two = a;
        a.wrapping_add(b)
    }
    pub fn below(&mut self, n: u32) -> u32 {
        ((self.next() as u64 * n as u64) >> 32) as u32
    }
}


// ----- events -------------------------------------------------------------

/// A line is one act or event; a turn is `Turn`, its steps, and its end.
#[derive(Clone, Copy, PartialEq, Debug)]
pub enum Op {
    Spawn,
    Wake(u64),
    NewSleep(u128),
    Reset(u64, u128),
    DropSleep(u64),
    DropJoin(u64),
    Block(u64),
    DropJob(u64),
    Finished(u64),
    JobFinished(u64),
    SleepElapsed(u64),
    JobEnd(u64, bool),
    PollSleep(u64),
    PollJoin(u64),
    PollJob(u64),
    Turn,
    Pending,
    Ready(u64),
    Clock(u128),
    Remote(u64),
    Drain,
}

// ----- reading ------------------------------------------------------------

fn digits(b: &[u8], most: usize) -> Option<()> {
    let ok = !b.is_empty()
        && b.len() <= most
        && (b[0] != b'0' || b.len() == 1)
        && b.iter().all(u8::is_ascii_digit);
    ok.then_some(())
}
pub fn num(b: &[u8]) -> Option<u64> {
    digits(b, 20)?;
    let mut v = 0u64;
    for d in b {
        v = v.checked_mul(10)?.checked_add((d - b'0') as u64)?;
    }
    Some(v)
}
fn nanos(b: &[u8]) -> Option<u128> {
    if b.len() < 20 {
        return num(b).map(u128::from);
    }
    digits(b, 39)?;
    let mut v = 0u128;
    for d in b {
        v = v.checked_mul(10)?.checked_add((d - b'0') as u128)?;
    }
    Some(v)
}
fn two(b: &[u8]) -> Option<(&[u8], &[u8])> {
    let i = b.iter().position(|c| *c == b' ')?;
    Some((&b[..i], &b[i + 1..]))
}
fn act(b: &[u8]) -> Option<Op> {
    if b == b"spawn" {
        return Some(Op::Spawn);
    }
    let (word, rest) = two(b)?;
    Some(match word {
        b"wake" => Op::Wake(num(rest)?),
        b"sleep" => Op::NewSleep(nanos(rest)?),
        b"reset" => {
            let (s, n) = two(rest)?;
            Op::Reset(num(s)?, nanos(n)?)
        }
        b"drop-sleep" => Op::DropSleep(num(rest)?),
        b"drop-join" => Op::DropJoin(num(rest)?),
        b"block" => Op::Block(num(rest)?),
        b"drop-job" => Op::DropJob(num(rest)?),
        b"finished" => Op::Finished(num(rest)?),
        b"job-finished" => Op::JobFinished(num(rest)?),
        b"elapsed" => Op::SleepElapsed(num(rest)?),
        b"job-end" => {
            let (j, how) = two(rest)?;
            let ran = match how {
                b"ran" => true,
                b"canceled" => false,
                _ => return None,
            };
            Op::JobEnd(num(j)?, ran)
        }
        _ => return None,
    })
}
fn step(b: &[u8]) -> Option<Op> {
    match two(b) {
        Some((b"poll", r)) => Some(Op::PollSleep(num(r)?)),
        Some((b"join", r)) => Some(Op::PollJoin(num(r)?)),
        Some((b"job", r)) => Some(Op::PollJob(num(r)?)),
        _ => act(b),
    }
}
fn line(b: &[u8], out: &mut Vec<Op>) -> Option<()> {
    if let Some(mut rest) = b.strip_prefix(b"turn; ") {
        out.push(Op::Turn);
        loop {
            match rest.windows(2).position(|w| w == b"; ") {
                Some(i) => {
                    out.push(step(&rest[..i])?);
                    rest = &rest[i + 2..];
                }
                None => {
                    out.push(match rest {
                        b"pending" => Op::Pending,
                        _ => Op::Ready(num(rest.strip_prefix(b"ready ")?)?),
                    });
                    return Some(());
                }
            }
        }
    }
    out.push(match b {
        b"drain" => Op::Drain,
        _ => match two(b) {
            Some((b"clock", r)) => Op::Clock(nanos(r)?),
            Some((b"remote", r)) => Op::Remote(num(r)?),
            _ => act(b)?,
        },
    });
    Some(())
}
/// The ops and the count of lines, or the number of the first bad line.
pub fn parse(input: &[u8]) -> Result<(Vec<Op>, usize), usize> {
    let mut ops = Vec::new();
    let (mut at, mut n) = (0, 0);
    while at < input.len() {
        n += 1;
        let len = input[at..].iter().position(|c| *c == b'\n').ok_or(n)?;
        line(&input[at..at + len], &mut ops).ok_or(n)?;
        at += len + 1;
    }
    Ok((ops, n))
}

// ----- timers -------------------------------------------------------------

/// The index of the armed sleeps.
pub trait Index {
    fn insert(&mut self, sleep: usize, tick: u64);
    fn remove(&mut self, sleep: usize);
    fn extend(&mut self, sleep: usize, tick: u64);
    fn pop(&mut self, now: u64) -> Option<usize>;
}

#[derive(Default)]
pub struct TreeIndex {
    map: BTreeMap<(u64, u64), usize>,
    place: Vec<(u64, u64)>,
    seq: u64,
}
impl Index for TreeIndex {
    fn insert(&mut self, s: usize, tick: u64) {
        if self.place.len() <= s {
            self.place.resize(s + 1, (0, 0));
        }
        self.place[s] = (tick, self.seq);
        self.map.insert(self.place[s], s);
        self.seq += 1;
    }
    fn remove(&mut self, s: usize) {
        self.map.remove(&self.place[s]);
    }
    fn extend(&mut self, s: usize, tick: u64) {
        let (old, seq) = self.place[s];
        self.map.remove(&(old, seq));
        self.place[s] = (tick, seq);
        self.map.insert((tick, seq), s);
    }
    fn pop(&mut self, now: u64) -> Option<usize> {
        let e = self.map.first_entry()?;
        (e.key().0 <= now).then(|| e.remove())
    }
}

// ----- the machine --------------------------------------------------------

#[derive(Clone, Copy, PartialEq)]
enum Phase {
    Idle,
    Queued,
    Running { noted: bool },
    Done(u64),
    Taken,
    Gone,
}
struct Task {
    phase: Phase,
    handle: bool,
    listed: bool,
    waiter: Option<u64>,
}
#[derive(Clone, Copy, PartialEq)]
enum JobPhase {
    Running(u64),
    Ok(u64),
    Canceled,
    Taken,
    Absent,
}
struct Job {
    phase: JobPhase,
    waiter: Option<u64>,
}
#[derive(Clone, Copy, PartialEq)]
enum SleepPhase {
    Fresh(u128),
    Armed(u64),
    Elapsed,
    Gone,
}
struct Sleep {
    phase: SleepPhase,
    waker: Option<u64>,
}
#[derive(Clone, Copy, PartialEq)]
pub enum Strategy {
    Attached,
    Local,
    Panic,
}
#[derive(Clone, Copy)]
pub enum Refusal {
    Idle,
    NoTask,
    NoTimer,
    NoHandle,
    Taken,
    AtCapacity,
    Invalid,
    NoPool,
    Ended,
}
use Refusal as R;

#[derive(Clone, Copy)]
pub enum Reply {
    Task(u64),
    Queued,
    Noted,
    Nothing,
    Sleep(u64),
    Armed,
    Elapsed,
    Dropped(Option<u64>),
    Job(u64),
    Yes,
    No,
    Ended(Option<u64>),
    Pending,
    Ready,
    Output(u64),
    Canceled,
    Refused(Refusal),
}

/// Where the reports go: text, or the counts of `load`.
pub trait Report {
    fn reply(&mut self, r: Reply);
    fn event_end(&mut self);
    fn turn(&mut self, t: u64);
    fn next(&mut self);
    fn word(&mut self, w: &str);
    fn number(&mut self, n: u64);
    fn fired(&mut self, s: u64);
}

pub struct Text(pub Vec<u8>);
impl Text {
    fn num(&mut self, mut n: u64) {
        let mut buf = [0u8; 20];
        let mut i = 20;
        loop {
            i -= 1;
            buf[i] = b'0' + (n % 10) as u8;
            n /= 10;
            if n == 0 {
                break;
            }
        }
        self.0.extend_from_slice(&buf[i..]);
    }
    fn pair(&mut self, w: &str, n: u64) {
        self.0.extend_from_slice(w.as_bytes());
        self.0.push(b' ');
        self.num(n);
    }
}
impl Report for Text {
    fn reply(&mut self, r: Reply) {
        match r {
            Reply::Task(n) => self.pair("task", n),
            Reply::Queued => self.word("queued"),
            Reply::Noted => self.word("noted"),
            Reply::Nothing => self.word("nothing"),
            Reply::Sleep(n) => self.pair("sleep", n),
            Reply::Armed => self.word("armed"),
            Reply::Elapsed => self.word("elapsed"),
            Reply::Dropped(None) => self.word("dropped"),
            Reply::Dropped(Some(n)) => self.pair("dropped", n),
            Reply::Job(n) => self.pair("job", n),
            Reply::Yes => self.word("yes"),
            Reply::No => self.word("no"),
            Reply::Ended(None) => self.word("ended"),
            Reply::Ended(Some(n)) => self.pair("ended", n),
            Reply::Pending => self.word("pending"),
            Reply::Ready => self.word("ready"),
            Reply::Output(n) => self.pair("ready", n),
            Reply::Canceled => self.word("canceled"),
            Reply::Refused(r) => self.word(match r {
                R::Idle => "refused idle",
                R::NoTask => "refused no-task",
                R::NoTimer => "refused no-timer",
                R::NoHandle => "refused no-handle",
                R::Taken => "refused taken",
                R::AtCapacity => "refused at-capacity",
                R::Invalid => "refused invalid",
                R::NoPool => "refused no-pool",
                R::Ended => "refused ended",
            }),
        }
    }
    fn event_end(&mut self) {
        self.0.push(b'\n')
    }
    fn turn(&mut self, t: u64) {
        self.pair("turn", t)
    }
    fn next(&mut self) {
        self.0.extend_from_slice(b"; ")
    }
    fn word(&mut self, w: &str) {
        self.0.extend_from_slice(w.as_bytes())
    }
    fn number(&mut self, n: u64) {
        self.0.push(b' ');
        self.num(n)
    }
    fn fired(&mut self, s: u64) {
        self.number(s)
    }
}

#[derive(Default)]
pub struct Counts {
    pub fired: u64,
    pub refused: u64,
    pub order: u64,
}
impl Report for Counts {
    fn reply(&mut self, r: Reply) {
        if let Reply::Refused(_) = r {
            self.refused += 1;
        }
    }
    fn event_end(&mut self) {}
    fn turn(&mut self, _: u64) {}
    fn next(&mut self) {}
    fn word(&mut self, _: &str) {}
    fn number(&mut self, _: u64) {}
    fn fired(&mut self, s: u64) {
        self.fired += 1;
        self.order = self.order.wrapping_mul(31).wrapping_add(s + 1);
    }
}

fn down(n: u128) -> u64 {
    match u64::try_from(n) {
        Ok(n) => n / 1_000_000,
        Err(_) => (n / 1_000_000) as u64,
    }
}
fn up(n: u128) -> u64 {
    match u64::try_from(n) {
        Ok(n) => n / 1_000_000 + (n % 1_000_000 != 0) as u64,
        Err(_) => ((n + 999_999) / 1_000_000) as u64,
    }
}

pub struct Machine<I> {
    strategy: Strategy,
    limits: [u64; 3],
    live: [u64; 3],
    tasks: Vec<Task>,
    jobs: Vec<Job>,
    sleeps: Vec<Sleep>,
    queue: VecDeque<u64>,
    inbox: Vec<u64>,
    index: I,
    greatest: u64,
}

impl<I: Index> Machine<I> {
    pub fn new(strategy: Strategy, limits: [u64; 3], index: I) -> Machine<I> {
        Machine {
            strategy,
            limits,
            live: [0; 3],
            tasks: Vec::new(),
            jobs: Vec::new(),
            sleeps: Vec::new(),
            queue: VecDeque::new(),
            inbox: Vec::new(),
            index,
            greatest: 0,
        }
    }
    fn task(&mut self, t: u64) -> Result<&mut Task, R> {
        self.tasks.get_mut(t as usize).ok_or(R::NoTask)
    }
    fn job(&mut self, j: u64) -> Result<&mut Job, R> {
        self.jobs.get_mut(j as usize).ok_or(R::NoTask)
    }
    fn sleep(&mut self, s: u64) -> Result<&mut Sleep, R> {
        let s = self.sleeps.get_mut(s as usize).ok_or(R::NoTimer)?;
        if s.phase == SleepPhase::Gone {
            return Err(R::NoTimer);
        }
        Ok(s)
    }
    fn wake(&mut self, t: u64) -> Reply {
        let task = &mut self.tasks[t as usize];
        match task.phase {
            Phase::Idle => {
                task.phase = Phase::Queued;
                self.queue.push_back(t);
                Reply::Queued
            }
            Phase::Running { .. } => {
                task.phase = Phase::Running { noted: true };
                Reply::Noted
            }
            _ => Reply::Nothing,
        }
    }
    fn elapse(&mut self, s: usize) {
        self.sleeps[s].phase = SleepPhase::Elapsed;
        if let Some(t) = self.sleeps[s].waker.take() {
            self.wake(t);
        }
    }
    fn arm(&mut self, s: usize, n: u128) -> Reply {
        let t = up(n);
        let old = self.sleeps[s].phase;
        if t <= self.greatest {
            if let SleepPhase::Armed(_) = old {
                self.index.remove(s);
            }
            self.elapse(s);
            return Reply::Elapsed;
        }
        match old {
            SleepPhase::Armed(u) if u <= t => {
                if u < t {
                    self.index.extend(s, t);
                }
            }
            SleepPhase::Armed(_) => {
                self.index.remove(s);
                self.index.insert(s, t);
            }
            _ => self.index.insert(s, t),
        }
        self.sleeps[s].phase = SleepPhase::Armed(t);
        Reply::Armed
    }
    fn room(&self, kind: usize) -> Result<(), R> {
        if self.live[kind] >= self.limits[kind] {
            return Err(R::AtCapacity);
        }
        Ok(())
    }
    fn act(&mut self, op: Op, me: Option<u64>) -> Result<Reply, R> {
        Ok(match op {
            Op::Spawn => {
                self.room(0)?;
                let t = self.tasks.len() as u64;
                self.live[0] += 1;
                self.tasks.push(Task {
                    phase: Phase::Queued,
                    handle: true,
                    listed: false,
                    waiter: None,
                });
                self.queue.push_back(t);
                Reply::Task(t)
            }
            Op::Wake(t) => {
                self.task(t)?;
                self.wake(t)
            }
            Op::NewSleep(n) => {
                self.room(2)?;
                if n > MAX_NANOS {
                    return Err(R::Invalid);
                }
                self.live[2] += 1;
                self.sleeps.push(Sleep { phase: SleepPhase::Fresh(n), waker: None });
                Reply::Sleep(self.sleeps.len() as u64 - 1)
            }
            Op::Reset(s, n) => {
                self.sleep(s)?;
                if n > MAX_NANOS {
                    return Err(R::Invalid);
                }
                self.arm(s as usize, n)
            }
            Op::DropSleep(s) => {
                let sleep = self.sleep(s)?;
                let old = sleep.phase;
                sleep.phase = SleepPhase::Gone;
                sleep.waker = None;
                if let SleepPhase::Armed(_) = old {
                    self.index.remove(s as usize);
                }
                self.live[2] -= 1;
                Reply::Dropped(None)
            }
            Op::DropJoin(t) => {
                let task = self.task(t)?;
                if !task.handle {
                    return Err(R::NoHandle);
                }
                task.handle = false;
                task.waiter = None;
                let out = match task.phase {
                    Phase::Done(o) => Some(o),
                    Phase::Taken => None,
                    _ => return Ok(Reply::Dropped(None)),
                };
                task.phase = Phase::Gone;
                self.live[0] -= 1;
                Reply::Dropped(out)
            }
            Op::Block(o) => {
                self.room(1)?;
                let phase = match self.strategy {
                    Strategy::Panic => return Err(R::NoPool),
                    Strategy::Attached => JobPhase::Running(o),
                    Strategy::Local => JobPhase::Ok(o),
                };
                self.live[1] += 1;
                self.jobs.push(Job { phase, waiter: None });
                Reply::Job(self.jobs.len() as u64 - 1)
            }
            Op::DropJob(j) => {
                let job = self.job(j)?;
                let old = job.phase;
                if old == JobPhase::Absent {
                    return Err(R::NoHandle);
                }
                *job = Job { phase: JobPhase::Absent, waiter: None };
                self.live[1] -= 1;
                Reply::Dropped(match old {
                    JobPhase::Ok(o) => Some(o),
                    _ => None,
                })
            }
            Op::Finished(t) => {
                let task = self.task(t)?;
                if !task.handle {
                    return Err(R::NoHandle);
                }
                match task.phase {
                    Phase::Done(_) | Phase::Taken => Reply::Yes,
                    _ => Reply::No,
                }
            }
            Op::JobFinished(j) => match self.job(j)?.phase {
                JobPhase::Absent => return Err(R::NoHandle),
                JobPhase::Running(_) => Reply::No,
                _ => Reply::Yes,
            },
            Op::SleepElapsed(s) => match self.sleep(s)?.phase {
                SleepPhase::Elapsed => Reply::Yes,
                _ => Reply::No,
            },
            Op::JobEnd(j, ran) => {
                let job = self.job(j)?;
                match job.phase {
                    JobPhase::Absent => Reply::Ended(None),
                    JobPhase::Running(o) => {
                        job.phase = if ran { JobPhase::Ok(o) } else { JobPhase::Canceled };
                        Reply::Ended(job.waiter.take())
                    }
                    _ => return Err(R::Ended),
                }
            }
            Op::PollSleep(s) => {
                if let SleepPhase::Fresh(n) = self.sleep(s)?.phase {
                    self.arm(s as usize, n);
                }
                let sleep = &mut self.sleeps[s as usize];
                if sleep.phase == SleepPhase::Elapsed {
                    Reply::Ready
                } else {
                    sleep.waker = me;
                    Reply::Pending
                }
            }
            Op::PollJoin(t) => {
                let task = self.task(t)?;
                if !task.handle {
                    return Err(R::NoHandle);
                }
                match task.phase {
                    Phase::Taken => return Err(R::Taken),
                    Phase::Done(o) => {
                        task.phase = Phase::Taken;
                        Reply::Output(o)
                    }
                    _ => {
                        task.waiter = me;
                        Reply::Pending
                    }
                }
            }
            Op::PollJob(j) => {
                let job = self.job(j)?;
                match job.phase {
                    JobPhase::Absent => return Err(R::NoHandle),
                    JobPhase::Taken => return Err(R::Taken),
                    JobPhase::Ok(o) => {
                        job.phase = JobPhase::Taken;
                        Reply::Output(o)
                    }
                    JobPhase::Canceled => {
                        job.phase = JobPhase::Taken;
                        Reply::Canceled
                    }
                    JobPhase::Running(_) => {
                        job.waiter = me;
                        Reply::Pending
                    }
                }
            }
            _ => unreachable!("not an act"),
        })
    }
    fn turn<P: Report>(&mut self, steps: &[Op], rep: &mut P) {
        let Some(t) = self.queue.pop_front() else {
            rep.reply(Reply::Refused(R::Idle));
            return rep.event_end();
        };
        self.tasks[t as usize].phase = Phase::Running { noted: false };
        rep.turn(t);
        rep.next();
        let (end, steps) = steps.split_last().unwrap();
        for s in steps {
            let r = self.act(*s, Some(t)).unwrap_or_else(Reply::Refused);
            rep.reply(r);
            rep.next();
        }
        let task = &mut self.tasks[t as usize];
        match *end {
            Op::Ready(o) => {
                if task.handle {
                    task.phase = Phase::Done(o);
                    if let Some(w) = task.waiter.take() {
                        self.wake(w);
                    }
                    rep.word("done");
                } else {
                    task.phase = Phase::Gone;
                    self.live[0] -= 1;
                    rep.word("gone");
                }
            }
            _ => {
                if task.phase == (Phase::Running { noted: true }) {
                    task.phase = Phase::Queued;
                    self.queue.push_back(t);
                    rep.word("again");
                } else {
                    task.phase = Phase::Idle;
                    rep.word("idle");
                }
            }
        }
        rep.event_end();
    }
    /// Runs one event that starts at `ops[0]`; answers how many ops it took.
    pub fn event<P: Report>(&mut self, ops: &[Op], rep: &mut P) -> usize {
        match ops[0] {
            Op::Turn => {
                let n = ops.iter().position(|o| matches!(o, Op::Pending | Op::Ready(_))).unwrap();
                self.turn(&ops[1..=n], rep);
                return n + 1;
            }
            Op::Clock(n) => {
                if n > MAX_NANOS {
                    rep.reply(Reply::Refused(R::Invalid));
                } else {
                    self.greatest = self.greatest.max(down(n));
                    rep.word("fired");
                    while let Some(s) = self.index.pop(self.greatest) {
                        rep.fired(s as u64);
                        self.elapse(s);
                    }
                }
            }
            Op::Remote(t) => match self.task(t) {
                Err(r) => rep.reply(Reply::Refused(r)),
                Ok(task) => {
                    let over = matches!(task.phase, Phase::Done(_) | Phase::Taken | Phase::Gone);
                    if over || task.listed {
                        rep.word("unlisted");
                    } else {
                        task.listed = true;
                        self.inbox.push(t);
                        rep.word("listed");
                    }
                }
            },
            Op::Drain => {
                rep.word("drained");
                for t in std::mem::take(&mut self.inbox) {
                    rep.number(t);
                    self.tasks[t as usize].listed = false;
                    self.wake(t);
                }
            }
            op => rep.reply(self.act(op, None).unwrap_or_else(Reply::Refused)),
        }
        rep.event_end();
        1
    }
}

// ----- the commands -------------------------------------------------------

pub fn replay_text<I: Index>(
    ops: &[Op],
    strategy: Strategy,
    limits: [u64; 3],
    index: I,
    room: usize,
) -> Vec<u8> {
    let mut m = Machine::new(strategy, limits, index);
    let mut out = Text(Vec::with_capacity(room));
    let mut at = 0;
    while at < ops.len() {
        at += m.event(&ops[at..], &mut out);
    }
    out.0
}

pub fn load_with<I: Index>(index: I, seed: u64, count: u64) -> String {
    let mut r = FastRand::new(seed);
    let mut m = Machine::new(Strategy::Panic, [count, 0, count], index);
    let mut c = Counts::default();
    for k in 0..count {
        m.event(&[Op::Spawn], &mut c);
        let d = r.next() as u128 * 1_000_000;
        m.event(&[Op::Turn, Op::NewSleep(d), Op::PollSleep(k), Op::Pending], &mut c);
    }
    for j in 1..=16u128 {
        m.event(&[Op::Clock((j << 28) * 1_000_000)], &mut c);
    }
    for _ in 0..count {
        m.event(&[Op::Turn, Op::Ready(0)], &mut c);
    }
    format!("events {} fired {} refused {} order {}", 3 * count + 16, c.fired, c.refused, c.order)
}

fn usage() -> i32 {
    2
}

pub fn strategy(w: &str) -> Option<Strategy> {
    Some(match w {
        "attached" => Strategy::Attached,
        "local" => Strategy::Local,
        "panic" => Strategy::Panic,
        _ => return None,
    })
}

/// Writes an input of about `bytes` bytes.
pub fn generate(kind: &str, bytes: usize, seed: u64) -> i32 {
    use std::fmt::Write as _;
    let mut r = FastRand::new(seed);
    let mut o = String::with_capacity(bytes + 256);
    match kind {
        // the shortest event that does something
        "spawn" => {
            while o.len() + 6 <= bytes {
                o.push_str("spawn\n");
            }
        }
        // what `load` does, as text: each task sleeps once
        "timers" => {
            let mut k = 0u64;
            while o.len() + 120 <= bytes * 9 / 10 {
                let d = r.next() as u64 * 1_000_000;
                writeln!(o, "spawn\nturn; sleep {d}; poll {k}; pending").unwrap();
                k += 1;
            }
            for j in 1..=16u64 {
                writeln!(o, "clock {}", (j << 28) * 1_000_000).unwrap();
            }
            while k > 0 && o.len() + 14 <= bytes {
                o.push_str("turn; ready 0\n");
                k -= 1;
            }
        }
        // a server: tasks with timeouts, resets, wakes, remote wakes
        "mix" => {
            let n = (bytes as u64 / 400).clamp(1, 50_000);
            for k in 0..n {
                let d = (1 + r.below(60_000)) as u64 * 1_000_000;
                writeln!(o, "spawn\nturn; sleep {d}; poll {k}; pending").unwrap();
            }
            let mut now = 0u64;
            let mut sleeps = n;
            while o.len() + 400 <= bytes {
                let k = r.below(n as u32) as u64;
                let later = now + (30_000 + r.below(60_000)) as u64 * 1_000_000;
                match r.below(10) {
                    0 => {
                        now += r.below(20) as u64 * 1_000_000 + 500_000;
                        writeln!(o, "clock {now}").unwrap();
                    }
                    1 => writeln!(o, "remote {k}\nremote {}\ndrain", r.below(n as u32)).unwrap(),
                    2 => writeln!(o, "wake {k}").unwrap(),
                    3..=5 => writeln!(o, "wake {k}\nturn; reset {k} {later}; poll {k}; pending").unwrap(),
                    6 => {
                        let s = r.below(sleeps as u32);
                        writeln!(o, "wake {k}\nturn; drop-sleep {s}; sleep {later}; poll {sleeps}; pending").unwrap();
                        sleeps += 1;
                    }
                    7 => writeln!(o, "wake {k}\nturn; poll {k}; wake {}; pending", r.below(n as u32)).unwrap(),
                    _ => o.push_str("turn; pending\n"),
                }
            }
        }
        _ => return 2,
    }
    std::io::Write::write_all(&mut std::io::stdout(), o.as_bytes()).map_or(5, |_| 0)
}

/// Runs `replay STRATEGY T J S`, `load SEED COUNT` or `generate spawn|timers|mix BYTES SEED`.
pub fn main_words(words: &[String]) -> i32 {
    let n = |w: &str| num(w.as_bytes());
    let out = match words.iter().map(String::as_str).collect::<Vec<_>>()[..] {
        ["generate", kind, bytes, seed] => {
            let (Some(bytes), Some(seed)) = (n(bytes), n(seed)) else { return usage() };
            return generate(kind, bytes as usize, seed);
        }
        ["replay", s, t, j, sl] => {
            let (Some(s), Some(t), Some(j), Some(sl)) = (strategy(s), n(t), n(j), n(sl)) else { return usage() };
            let mut input = Vec::new();
            if std::io::stdin().lock().take(MAX_INPUT as u64 + 1).read_to_end(&mut input).is_err() {
                return 4;
            }
            if input.len() > MAX_INPUT {
                return 7;
            }
            match parse(&input) {
                Err(line) => {
                    println!("bad line {line}");
                    return 3;
                }
                Ok((ops, _)) => replay_text(&ops, s, [t, j, sl], TreeIndex::default(), input.len()),
            }
        }
        ["load", seed, count] => {
            let (Some(seed), Some(count)) = (n(seed), n(count)) else { return usage() };
            (load_with(TreeIndex::default(), seed, count) + "\n").into_bytes()
        }
        _ => return usage(),
    };
    std::io::stdout().lock().write_all(&out).map_or(5, |_| 0)
}

fn main() {
    let words: Vec<String> = std::env::args().skip(1).collect();
    std::process::exit(main_words(&words));
}
