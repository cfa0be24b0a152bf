//! The workload of `mono_bench year` over plain models of the services and of the tasks: the same words, the same draws,
//! the same lines. The models follow docs/FORMATS.md and docs/MACHINE.md.
//!
//! rustc --edition 2021 -C opt-level=3 tools/bench/year.rs -o FOLDER/year ; FOLDER/year 1000000 1

use std::collections::{BTreeMap, BTreeSet, HashMap, VecDeque};

const MOST: usize = 12000;
const ENTRIES: usize = 18000;
const LAST: u64 = 13200;
const BUCKETS: u64 = 100;
const HANDLES: u64 = 100;
const LAST_TICK: u64 = (1 << 63) - 1;

fn join(hash: u64, number: u64) -> u64 {
    hash.wrapping_mul(6364136223846793005).wrapping_add(number).wrapping_add(1)
}

fn given(number: u64) -> u64 {
    number.saturating_add(16)
}

fn sum_of(numbers: impl IntoIterator<Item = u64>) -> u64 {
    numbers.into_iter().fold(0, |sum, number| sum.wrapping_add(join(16, number)))
}

/// The generator `fastrand` of monoio and tokio.
struct Random {
    one: u32,
    two: u32,
}

impl Random {
    fn new(seed: u64) -> Random {
        Random { one: (seed >> 32) as u32, two: (seed as u32).max(1) }
    }

    fn below(&mut self, end: u32) -> u64 {
        let (mut s1, s0) = (self.one, self.two);
        s1 ^= s1 << 17;
        s1 = s1 ^ s0 ^ (s1 >> 7) ^ (s0 >> 16);
        self.one = s0;
        self.two = s1;
        (u64::from(s0.wrapping_add(s1)) * u64::from(end)) >> 32
    }
}

/// Numbers that were given out in a row.
struct Row {
    oldest: u64,
    next: u64,
}

impl Row {
    fn new() -> Row {
        Row { oldest: 1, next: 1 }
    }

    fn is_long(&self, most: u64) -> bool {
        self.next.saturating_sub(self.oldest) >= most
    }

    fn back(&self, steps: u64) -> u64 {
        self.next.saturating_sub(steps).max(1)
    }

    fn give(&mut self, number: u64) {
        self.next = self.next.max(number + 1);
    }

    fn skip(&mut self) -> u64 {
        self.oldest += 1;
        self.oldest - 1
    }
}

/// Refusals are below 16: at capacity 1, invalid 2, no session 3, zero limit 4, doubled 5, not in 6.
#[derive(Default)]
struct Sessions {
    // of each session its last heartbeat, its limit and its keys
    open: HashMap<u64, (u64, u64, Vec<u64>)>,
    ends: BTreeSet<(u64, u64)>,
    queues: HashMap<u64, VecDeque<u64>>,
    entries: usize,
    next: u64,
    now: u64,
}

impl Sessions {
    fn open(&mut self, limit: u64) -> Result<u64, u64> {
        if self.open.len() >= MOST {
            return Err(1);
        }
        if self.now + limit > LAST_TICK {
            return Err(2);
        }
        if limit == 0 {
            return Err(4);
        }
        self.open.insert(self.next, (self.now, limit, Vec::new()));
        self.ends.insert((self.now + limit, self.next));
        self.next += 1;
        Ok(self.next - 1)
    }

    fn beat(&mut self, session: u64) -> u64 {
        let Some((last, limit, _)) = self.open.get_mut(&session) else {
            return 3;
        };
        if self.now + *limit > LAST_TICK {
            return 2;
        }
        self.ends.remove(&(*last + *limit, session));
        *last = self.now;
        self.ends.insert((*last + *limit, session));
        16
    }

    fn leave(&mut self, session: u64, key: u64) {
        self.entries -= 1;
        let queue = self.queues.get_mut(&key).unwrap();
        queue.retain(|other| *other != session);
        if queue.is_empty() {
            self.queues.remove(&key);
        }
    }

    fn close(&mut self, session: u64) -> u64 {
        let Some((last, limit, keys)) = self.open.remove(&session) else {
            return 3;
        };
        self.ends.remove(&(last + limit, session));
        for key in keys {
            self.leave(session, key);
        }
        16
    }

    fn acquire(&mut self, session: u64, key: u64) -> u64 {
        if self.entries >= ENTRIES {
            return 1;
        }
        let Some((_, _, keys)) = self.open.get_mut(&session) else {
            return 3;
        };
        if keys.contains(&key) {
            return 5;
        }
        keys.push(key);
        self.entries += 1;
        let queue = self.queues.entry(key).or_default();
        queue.push_back(session);
        if queue.len() == 1 { 16 } else { 17 }
    }

    fn release(&mut self, session: u64, key: u64) -> u64 {
        let Some((_, _, keys)) = self.open.get_mut(&session) else {
            return 3;
        };
        if !keys.contains(&key) {
            return 6;
        }
        keys.retain(|other| *other != key);
        self.leave(session, key);
        16
    }

    fn owner(&self, key: u64) -> u64 {
        self.queues.get(&key).map_or(1, |queue| given(queue[0]))
    }

    fn clock(&mut self, tick: u64) -> Vec<u64> {
        self.now = self.now.max(tick);
        let mut closed = Vec::new();
        while let Some(&(at, session)) = self.ends.first() {
            if at > self.now {
                break;
            }
            closed.push(session);
            self.close(session);
        }
        closed
    }
}

struct Bucket {
    burst: u64,
    period: u64,
    tokens: u64,
    filled: u64,
}

struct Retry {
    base: u64,
    cap: u64,
    most: u64,
    failures: u64,
    until: Option<u64>,
}

/// Refusals: at capacity 1, invalid 2, too many 4, waiting 5, bad retry 6, no bucket 7, no retry 8.
#[derive(Default)]
struct Limiter {
    buckets: Vec<Bucket>,
    retries: BTreeMap<u64, Retry>,
    waits: BTreeSet<(u64, u64)>,
    next: u64,
    now: u64,
}

impl Limiter {
    fn take(&mut self, bucket: u64, n: u64) -> u64 {
        let Some(bucket) = self.buckets.get_mut(bucket as usize) else {
            return 7;
        };
        if n > bucket.burst {
            return 4;
        }
        // each bucket is made at tick 0
        let periods = self.now / bucket.period;
        bucket.tokens = bucket.burst.min(bucket.tokens + (periods - bucket.filled));
        bucket.filled = periods;
        if bucket.tokens >= n {
            bucket.tokens -= n;
            return 16;
        }
        join(17, (periods + n - bucket.tokens) * bucket.period)
    }

    fn retry(&mut self, base: u64, cap: u64, most: u64) -> Result<u64, u64> {
        if self.retries.len() >= MOST {
            return Err(1);
        }
        if base == 0 || cap < base || most == 0 {
            return Err(6);
        }
        self.retries.insert(self.next, Retry { base, cap, most, failures: 0, until: None });
        self.next += 1;
        Ok(self.next - 1)
    }

    fn fail(&mut self, number: u64) -> u64 {
        let Some(retry) = self.retries.get_mut(&number) else {
            return 8;
        };
        if retry.until.is_some() {
            return 5;
        }
        retry.failures += 1;
        if retry.failures == retry.most {
            self.retries.remove(&number);
            return 16;
        }
        let tick = self.now + retry.cap.min(retry.base << (retry.failures - 1));
        retry.until = Some(tick);
        self.waits.insert((tick, number));
        join(18, tick)
    }

    fn done(&mut self, number: u64) -> u64 {
        match self.retries.remove(&number) {
            None => 8,
            Some(retry) => {
                if let Some(tick) = retry.until {
                    self.waits.remove(&(tick, number));
                }
                16
            }
        }
    }

    fn clock(&mut self, tick: u64) -> Vec<u64> {
        self.now = self.now.max(tick);
        let mut due = Vec::new();
        while let Some(&(at, number)) = self.waits.first() {
            if at > self.now {
                break;
            }
            self.waits.pop_first();
            self.retries.get_mut(&number).unwrap().until = None;
            due.push(number);
        }
        due
    }
}

#[derive(Default)]
struct Actor {
    mail: VecDeque<(u64, u64)>,
    timeout: u64,
    until: Option<u64>,
    is_idle: bool,
}

/// Refusals: idle 1, at capacity 2, no actor 3.
#[derive(Default)]
struct Actors {
    live: BTreeMap<u64, Actor>,
    queue: VecDeque<u64>,
    waits: BTreeSet<(u64, u64)>,
    messages: usize,
    next: u64,
    now: u64,
}

impl Actors {
    fn spawn(&mut self) -> Result<u64, u64> {
        if self.live.len() >= MOST {
            return Err(2);
        }
        self.live.insert(self.next, Actor { is_idle: true, ..Actor::default() });
        self.next += 1;
        Ok(self.next - 1)
    }

    fn send(&mut self, from: u64, to: u64, message: u64) -> u64 {
        if self.messages >= MOST {
            return 2;
        }
        if !self.live.contains_key(&from) || !self.live.contains_key(&to) {
            return 3;
        }
        self.messages += 1;
        let actor = self.live.get_mut(&to).unwrap();
        actor.mail.push_back((from, message));
        if !actor.is_idle {
            return 17;
        }
        actor.is_idle = false;
        if let Some(tick) = actor.until.take() {
            self.waits.remove(&(tick, to));
        }
        self.queue.push_back(to);
        16
    }

    /// An idle actor waits for its timeout from now on.
    fn rearm(&mut self, number: u64) {
        let actor = self.live.get_mut(&number).unwrap();
        if let Some(tick) = actor.until.take() {
            self.waits.remove(&(tick, number));
        }
        if actor.timeout > 0 && self.now + actor.timeout <= LAST_TICK {
            actor.until = Some(self.now + actor.timeout);
            self.waits.insert((self.now + actor.timeout, number));
        }
    }

    fn timeout(&mut self, number: u64, limit: u64) -> u64 {
        let Some(actor) = self.live.get_mut(&number) else {
            return 3;
        };
        actor.timeout = limit;
        if actor.is_idle {
            self.rearm(number);
        }
        16
    }

    fn begin(&mut self) -> Option<(u64, Option<(u64, u64)>)> {
        let number = self.queue.pop_front()?;
        let got = self.live.get_mut(&number).unwrap().mail.pop_front();
        self.messages -= usize::from(got.is_some());
        Some((number, got))
    }

    fn end(&mut self, number: u64, has_to_stop: bool) -> u64 {
        if has_to_stop {
            self.messages -= self.live.remove(&number).unwrap().mail.len();
            return 18;
        }
        let actor = self.live.get_mut(&number).unwrap();
        if !actor.mail.is_empty() {
            self.queue.push_back(number);
            return 17;
        }
        actor.is_idle = true;
        self.rearm(number);
        16
    }

    fn clock(&mut self, tick: u64) -> Vec<u64> {
        self.now = self.now.max(tick);
        let mut due = Vec::new();
        while let Some(&(at, number)) = self.waits.first() {
            if at > self.now {
                break;
            }
            self.waits.pop_first();
            let actor = self.live.get_mut(&number).unwrap();
            actor.until = None;
            actor.is_idle = false;
            self.queue.push_back(number);
            due.push(number);
        }
        due
    }
}

#[derive(Clone, Copy, PartialEq)]
enum Phase {
    Idle,
    Queued,
    Running,
    Noted,
    Done(u64),
    Taken,
}

#[derive(Clone, Copy)]
enum Work {
    Serves,
    Rests(u64),
    Naps(u64, u64),
    Rises(u64, u64),
    Waits(u64),
    Ends(u64),
}

struct Task {
    phase: Phase,
    work: Work,
    is_kept: bool,
    waiter: Option<u64>,
}

/// Answers: no task 1, no handle 2, taken 3, pending 5, no output 6, yes 7, no 8, queued 9, noted 10, nothing 11.
#[derive(Default)]
struct Tasks {
    tasks: BTreeMap<u64, Task>,
    queue: VecDeque<u64>,
    // the armed sleeps by tick and in the order of their arming, each with its task
    sleeps: BTreeMap<(u64, u64), u64>,
    arms: u64,
    next: u64,
    now: u64,
}

impl Tasks {
    fn spawn(&mut self, work: Work) -> u64 {
        self.tasks.insert(self.next, Task { phase: Phase::Queued, work, is_kept: true, waiter: None });
        self.queue.push_back(self.next);
        self.next += 1;
        self.next - 1
    }

    fn wake(&mut self, number: u64) -> u64 {
        if number >= self.next {
            return 1;
        }
        let Some(task) = self.tasks.get_mut(&number) else {
            return 11;
        };
        match task.phase {
            Phase::Idle => {
                task.phase = Phase::Queued;
                self.queue.push_back(number);
                9
            }
            Phase::Running | Phase::Noted => {
                task.phase = Phase::Noted;
                10
            }
            _ => 11,
        }
    }

    /// The task whose handle is kept, or the refusal.
    fn kept(&mut self, number: u64) -> Result<&mut Task, u64> {
        if number >= self.next {
            return Err(1);
        }
        match self.tasks.get_mut(&number) {
            Some(task) if task.is_kept => Ok(task),
            _ => Err(2),
        }
    }

    fn wait_for(&mut self, number: u64, me: u64) -> u64 {
        let task = match self.kept(number) {
            Ok(task) => task,
            Err(code) => return code,
        };
        match task.phase {
            Phase::Done(output) => {
                task.phase = Phase::Taken;
                given(output)
            }
            Phase::Taken => 3,
            _ => {
                task.waiter = Some(me);
                5
            }
        }
    }

    fn drop_handle(&mut self, number: u64) -> u64 {
        let task = match self.kept(number) {
            Ok(task) => task,
            Err(code) => return code,
        };
        let phase = task.phase;
        task.is_kept = false;
        task.waiter = None;
        if matches!(phase, Phase::Done(_) | Phase::Taken) {
            self.tasks.remove(&number);
        }
        if let Phase::Done(output) = phase { given(output) } else { 6 }
    }

    fn has_finished(&mut self, number: u64) -> u64 {
        match self.kept(number) {
            Ok(task) if matches!(task.phase, Phase::Done(_) | Phase::Taken) => 7,
            Ok(_) => 8,
            Err(code) => code,
        }
    }

    /// Arms a sleep of the running task, and returns its tick.
    fn sleep(&mut self, me: u64, millis: u64) -> u64 {
        let tick = self.now + millis;
        self.sleeps.insert((tick, self.arms), me);
        self.arms += 1;
        tick
    }

    fn finish(&mut self, me: u64, output: u64) {
        let task = self.tasks.get_mut(&me).unwrap();
        let waiter = task.waiter.take();
        if task.is_kept {
            task.phase = Phase::Done(output);
        } else {
            self.tasks.remove(&me);
        }
        if let Some(waiter) = waiter {
            self.wake(waiter);
        }
    }

    fn pend(&mut self, me: u64, work: Work) {
        let task = self.tasks.get_mut(&me).unwrap();
        task.work = work;
        if task.phase == Phase::Noted {
            task.phase = Phase::Queued;
            self.queue.push_back(me);
        } else {
            task.phase = Phase::Idle;
        }
    }

    /// The driver waits until the next sleep ends, and a clock step wakes the tasks whose sleeps end.
    fn park(&mut self) {
        self.now = self.sleeps.keys().next().expect("a sleep").0;
        while let Some((&(tick, arm), &task)) = self.sleeps.first_key_value() {
            if tick > self.now {
                return;
            }
            self.sleeps.remove(&(tick, arm));
            self.wake(task);
        }
    }
}

/// Of each job its output, until it is taken. Answers: no job 1, no handle 2, taken 3, no output 6, yes 7.
#[derive(Default)]
struct Jobs {
    kept: BTreeMap<u64, Option<u64>>,
    next: u64,
}

impl Jobs {
    fn missing(&self, job: u64) -> u64 {
        if job < self.next { 2 } else { 1 }
    }

    fn wait_for(&mut self, job: u64) -> u64 {
        let missing = self.missing(job);
        self.kept.get_mut(&job).map_or(missing, |output| output.take().map_or(3, given))
    }

    fn has_ended(&self, job: u64) -> u64 {
        self.kept.get(&job).map_or(self.missing(job), |_| 7)
    }

    fn drop_handle(&mut self, job: u64) -> u64 {
        let missing = self.missing(job);
        self.kept.remove(&job).map_or(missing, |output| output.map_or(6, given))
    }
}

struct Server {
    random: Random,
    sessions: Sessions,
    limiter: Limiter,
    actors: Actors,
    tasks: Tasks,
    jobs: Jobs,
    rows: [Row; 5],
    rushes: u64,
    calm: u64,
    events: u64,
    hash: u64,
    closed: u64,
    due: u64,
    turns: u64,
    millis: u64,
}

const LEASES: usize = 0;
const RETRIES: usize = 1;
const CROWD: usize = 2;
const TASKS: usize = 3;
const ERRANDS: usize = 4;

impl Server {
    fn new(seed: u64) -> Server {
        let mut server = Server {
            random: Random::new(seed),
            sessions: Sessions::default(),
            limiter: Limiter::default(),
            actors: Actors::default(),
            tasks: Tasks::default(),
            jobs: Jobs::default(),
            rows: [Row::new(), Row::new(), Row::new(), Row::new(), Row::new()],
            rushes: 0,
            calm: 0,
            events: 0,
            hash: 0,
            closed: 0,
            due: 0,
            turns: 0,
            millis: 0,
        };
        for i in 0..BUCKETS {
            let (burst, period) = (i % 16 + 1, i * 37 % 1000 + 1);
            server.limiter.buckets.push(Bucket { burst, period, tokens: burst, filled: 0 });
        }
        let made = (server.sessions.open(1 << 60), server.limiter.retry(1, 1, 1), server.actors.spawn());
        assert_eq!(made, (Ok(0), Ok(0), Ok(0)));
        server
    }

    fn below(&mut self, end: u32) -> u64 {
        self.random.below(end)
    }

    fn pick(&mut self, row: usize) -> u64 {
        let steps = self.below(LAST as u32);
        self.rows[row].back(steps)
    }

    fn pick_handle(&mut self, row: usize) -> u64 {
        let steps = self.below(HANDLES as u32);
        self.rows[row].back(steps)
    }

    fn note(&mut self, answer: u64) {
        self.events += 1;
        self.hash = join(self.hash, answer);
    }

    /// The code of a new number, which is given out in its row, or of a refusal.
    fn made(&mut self, row: usize, answer: Result<u64, u64>) -> u64 {
        match answer {
            Ok(number) => {
                self.rows[row].give(number);
                given(number)
            }
            Err(code) => code,
        }
    }

    /// All clients come. These calls are no events. Some pauses later the clock jumps by the most.
    fn fill(&mut self) {
        let events = self.events;
        for _ in 0..2 * LAST {
            for kind in [0, 9, 9, 12, 13, 20, 21, 22] {
                let answer = self.call(kind);
                self.note(answer);
            }
        }
        self.events = events;
        self.rushes += 1;
        self.calm = 64;
    }

    fn call(&mut self, kind: u64) -> u64 {
        match kind {
            0..=11 => join(1, self.call_sessions(kind)),
            12..=19 => join(2, self.call_limiter(kind)),
            _ => join(3, self.call_actors(kind)),
        }
    }

    fn call_sessions(&mut self, kind: u64) -> u64 {
        match kind {
            0 | 1 => {
                if self.rows[LEASES].is_long(LAST) {
                    let oldest = self.rows[LEASES].skip();
                    return self.sessions.close(oldest);
                }
                let reach = if self.below(2) == 0 { 1 << 17 } else { 1 << 22 };
                let limit = self.below(reach);
                let answer = self.sessions.open(limit);
                self.made(LEASES, answer)
            }
            2 => given(self.sessions.open.len() as u64),
            3 => {
                let key = self.below(256);
                self.sessions.owner(key)
            }
            4 => {
                let session = self.pick(LEASES);
                self.sessions.close(session)
            }
            5..=7 => {
                let session = self.pick(LEASES);
                self.sessions.beat(session)
            }
            _ => {
                let session = self.pick(LEASES);
                let key = self.below(256);
                if kind == 8 { self.sessions.release(session, key) } else { self.sessions.acquire(session, key) }
            }
        }
    }

    fn call_limiter(&mut self, kind: u64) -> u64 {
        match kind {
            12 => {
                if self.rows[RETRIES].is_long(LAST) {
                    let oldest = self.rows[RETRIES].skip();
                    return self.limiter.done(oldest);
                }
                let (base, cap, most) = (self.below(256), self.below(1 << 20), self.below(8));
                let answer = self.limiter.retry(base, cap, most);
                self.made(RETRIES, answer)
            }
            13..=15 => {
                let retry = self.pick(RETRIES);
                if kind == 15 { self.limiter.done(retry) } else { self.limiter.fail(retry) }
            }
            _ => {
                let bucket = self.below(BUCKETS as u32 + 1);
                let n = self.below(18);
                self.limiter.take(bucket, n)
            }
        }
    }

    fn call_actors(&mut self, kind: u64) -> u64 {
        match kind {
            20 => {
                if self.rows[CROWD].is_long(LAST) {
                    let code = self.actors.send(0, self.rows[CROWD].oldest, 0);
                    if code == 3 {
                        self.rows[CROWD].skip();
                    }
                    return code;
                }
                let answer = self.actors.spawn();
                self.made(CROWD, answer)
            }
            21 => {
                let actor = self.pick(CROWD);
                let limit = self.below(1 << 22);
                self.actors.timeout(actor, limit)
            }
            22..=26 => {
                let (from, to, message) = (self.pick(CROWD), self.pick(CROWD), self.below(256));
                self.actors.send(from, to, message)
            }
            _ => self.turn(true).unwrap_or(1),
        }
    }

    /// A turn of the first actor in the queue.
    fn turn(&mut self, may_send: bool) -> Option<u64> {
        let (me, got) = self.actors.begin()?;
        self.turns += 1;
        let got_code = got.map_or(17, |(from, message)| join(join(16, from), message));
        let mut code = join(join(19, me), got_code);
        let mut has_to_stop = false;
        if let Some((from, message)) = got {
            has_to_stop = message % 16 == 0;
            if may_send && message % 4 == 1 {
                code = join(code, self.actors.send(me, from, message + 1));
            }
        }
        Some(join(code, self.actors.end(me, has_to_stop)))
    }

    fn clock(&mut self) {
        self.millis = self.tasks.now;
        let closed = self.sessions.clock(self.millis);
        let due = self.limiter.clock(self.millis);
        self.closed += closed.len() as u64;
        self.due += due.len() as u64;
        self.note(join(sum_of(closed), sum_of(due)));
        let rung = sum_of(self.actors.clock(self.millis));
        let mut turns = 0u64;
        while let Some(code) = self.turn(false) {
            turns = turns.wrapping_add(code);
        }
        self.note(join(rung, turns));
    }

    fn call_task(&mut self, me: u64) {
        self.rows[TASKS].give(me);
        let kind = self.below(8);
        if kind < 3 && !self.rows[TASKS].is_long(HANDLES) {
            let output = self.below(1 << 16);
            let work = match self.below(3) {
                0 => Work::Ends(output),
                1 => Work::Waits(output),
                _ => Work::Naps(self.below(1 << 16) + 1, output),
            };
            let task = self.tasks.spawn(work);
            self.rows[TASKS].give(task);
            return self.note(task);
        }
        let task = if kind < 3 { self.rows[TASKS].skip() } else { self.pick_handle(TASKS) };
        let code = match kind {
            _ if task == me => self.tasks.has_finished(me),
            0..=3 => {
                let woke = self.tasks.wake(task);
                join(woke, self.tasks.drop_handle(task))
            }
            4 => self.tasks.wake(task),
            5 => self.tasks.has_finished(task),
            _ => self.tasks.wait_for(task, me),
        };
        self.note(code);
    }

    fn call_job(&mut self) {
        let kind = self.below(4);
        if kind < 2 {
            if self.rows[ERRANDS].is_long(HANDLES) {
                let oldest = self.rows[ERRANDS].skip();
                let code = self.jobs.drop_handle(oldest);
                return self.note(code);
            }
            let output = self.below(1 << 16);
            let job = self.jobs.next;
            self.jobs.kept.insert(job, Some(output));
            self.jobs.next += 1;
            self.rows[ERRANDS].give(job);
            return self.note(job);
        }
        let job = self.pick_handle(ERRANDS);
        let code = if kind == 2 { self.jobs.wait_for(job) } else { self.jobs.has_ended(job) };
        self.note(code);
    }

    fn pause(&mut self) -> u64 {
        let calm = self.calm;
        self.calm = calm.saturating_sub(1);
        if calm == 1 {
            return 1 << 26;
        }
        if self.below(2) == 0 {
            return 0;
        }
        match self.below(4096) {
            0 => self.below(1 << 26),
            1..=255 => self.below(1 << 18),
            _ => self.below(1000),
        }
    }

    /// The calls of a turn of the main task.
    fn serve(&mut self, me: u64, events: u64) {
        let is_drawn = self.below(1 << 16) == 0;
        if is_drawn || (self.rushes < 4 && self.calm == 0) {
            self.fill();
        }
        let calls = if self.below(64) == 0 { 1000 } else { self.below(16) };
        for _ in 0..calls {
            let kind = self.below(32);
            let answer = self.call(kind);
            self.note(answer);
        }
        self.call_task(me);
        self.call_job();
        if self.events >= events {
            return self.tasks.finish(me, 0);
        }
        let pause = self.pause();
        if pause == 0 {
            self.tasks.wake(me);
            return self.tasks.pend(me, Work::Serves);
        }
        let tick = self.tasks.sleep(me, pause);
        self.tasks.pend(me, Work::Rests(tick));
    }

    fn turn_of(&mut self, me: u64, events: u64) {
        let task = self.tasks.tasks.get_mut(&me).unwrap();
        task.phase = Phase::Running;
        match task.work {
            Work::Serves => self.serve(me, events),
            Work::Rests(tick) if tick > self.tasks.now => self.tasks.pend(me, Work::Rests(tick)),
            Work::Rests(_) => {
                self.clock();
                self.serve(me, events);
            }
            Work::Naps(millis, output) => {
                let tick = self.tasks.sleep(me, millis);
                self.tasks.pend(me, Work::Rises(tick, output));
            }
            Work::Rises(tick, output) if tick > self.tasks.now => self.tasks.pend(me, Work::Rises(tick, output)),
            Work::Rises(_, output) | Work::Ends(output) => self.tasks.finish(me, output),
            Work::Waits(output) => self.tasks.pend(me, Work::Ends(output)),
        }
    }

    fn run(&mut self, events: u64) {
        let main = self.tasks.spawn(Work::Serves);
        while self.tasks.tasks[&main].phase != Phase::Done(0) {
            match self.tasks.queue.pop_front() {
                Some(task) => self.turn_of(task, events),
                None => self.tasks.park(),
            }
        }
        self.tasks.drop_handle(main);
        println!(
            "{} events {} ms closed {} due {} turns {} hash {}",
            self.events, self.millis, self.closed, self.due, self.turns, self.hash
        );
    }
}

fn main() {
    let words: Vec<u64> = std::env::args().skip(1).map(|word| word.parse().expect("a number")).collect();
    let mut server = Server::new(words[1]);
    server.run(words[0] / 8760);
    server.run(words[0] / 12);
    server.run(words[0]);
}
