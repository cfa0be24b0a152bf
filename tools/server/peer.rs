//! The same server in Rust on tokio: a current-thread runtime and a thread for each core, tokio's mpsc, a BTreeMap of
//! deadlines. Words, requests and replies are those of lease_server.
use std::collections::{BTreeMap, HashMap, HashSet, VecDeque};
use std::io::{Read, Write};
use std::time::{Duration, Instant};
use tokio::sync::mpsc;

const SPREAD: u64 = 11400714819323198485;
const LAST_TICK: u64 = (1 << 63) - 1;
const PLACES: usize = 16;
const BLOCK: usize = 65536;

fn core_of(key: u64, cores: u64) -> u64 {
    (key.wrapping_mul(SPREAD) >> 32) % cores
}

#[derive(Clone, Copy)]
enum Call {
    Open(u64),
    Beat(u64),
    Close(u64),
    Acquire(u64),
    Release(u64),
    Try(u64),
    Owner,
    Count,
    Bucket(u64, u64),
    Take(u64, u64),
    Spawn,
    Send(u64, u64, u64),
    Receive,
}

#[derive(Clone, Copy)]
struct Request {
    number: u64,
    key: u64,
    call: Call,
}

#[derive(Clone, Copy)]
struct Sizes {
    sessions: u64,
    entries: u64,
    buckets: u64,
    actors: u64,
    messages: u64,
}

fn number(text: &[u8]) -> Option<u64> {
    if text.is_empty() || (text.len() > 1 && text[0] == b'0') {
        return None;
    }
    let mut value = 0u64;
    for byte in text {
        if !byte.is_ascii_digit() {
            return None;
        }
        value = value.checked_mul(10)?.checked_add(u64::from(byte - b'0'))?;
    }
    Some(value)
}

fn request_of(line_number: u64, line: &[u8]) -> Option<Request> {
    let mut words = line.split(|byte| *byte == b' ');
    let verb = words.next()?;
    let mut numbers = [0u64; 4];
    let mut count = 0;
    for word in words {
        *numbers.get_mut(count)? = number(word)?;
        count += 1;
    }
    let [key, a, b, c] = numbers;
    let (wanted, call) = match verb {
        b"open" => (2, Call::Open(a)),
        b"beat" => (2, Call::Beat(a)),
        b"close" => (2, Call::Close(a)),
        b"acquire" => (2, Call::Acquire(a)),
        b"release" => (2, Call::Release(a)),
        b"try" => (2, Call::Try(a)),
        b"owner" => (1, Call::Owner),
        b"stats" => (1, Call::Count),
        b"bucket" => (3, Call::Bucket(a, b)),
        b"take" => (3, Call::Take(a, b)),
        b"spawn" => (1, Call::Spawn),
        b"send" => (4, Call::Send(a, b, c)),
        b"receive" => (1, Call::Receive),
        _ => return None,
    };
    (count == wanted).then_some(Request { number: line_number, key, call })
}

struct Session {
    limit: u64,
    deadline: u64,
    keys: HashSet<u64>,
}

struct Bucket {
    burst: u64,
    period: u64,
    origin: u64,
    tokens: u64,
    ended: u64,
}

struct Actor {
    is_idle: bool,
    mailbox: VecDeque<(u64, u64)>,
}

struct Core {
    number: u64,
    sizes: Sizes,
    tick: u64,
    sessions: HashMap<u64, Session>,
    next_session: u64,
    deadlines: BTreeMap<(u64, u64), ()>,
    queues: HashMap<u64, VecDeque<u64>>,
    entries: u64,
    waiting: HashMap<(u64, u64), (u64, u64)>,
    buckets: Vec<Bucket>,
    actors: Vec<Actor>,
    queue: VecDeque<u64>,
    messages: u64,
    out: Vec<u8>,
}

impl Core {
    fn new(number: u64, sizes: Sizes) -> Core {
        Core {
            number,
            sizes,
            tick: 0,
            sessions: HashMap::new(),
            next_session: 0,
            deadlines: BTreeMap::new(),
            queues: HashMap::new(),
            entries: 0,
            waiting: HashMap::new(),
            buckets: Vec::new(),
            actors: Vec::new(),
            queue: VecDeque::new(),
            messages: 0,
            out: Vec::new(),
        }
    }

    fn reply(&mut self, number: u64, arrived: u64, text: std::fmt::Arguments) {
        writeln!(self.out, "{number} {} {arrived} {} {text}", self.number, self.tick).unwrap();
    }

    fn leave(&mut self, session: u64, key: u64) {
        if let Some(queue) = self.queues.get_mut(&key) {
            queue.retain(|s| *s != session);
            if queue.is_empty() {
                self.queues.remove(&key);
            }
        }
        self.entries -= 1;
    }

    fn hand_on(&mut self, key: u64) {
        if let Some(holder) = self.queues.get(&key).and_then(|queue| queue.front()).copied() {
            if let Some((number, arrived)) = self.waiting.remove(&(session_key(holder, key))) {
                self.reply(number, arrived, format_args!("held"));
            }
        }
    }

    fn remove(&mut self, session: u64, touched: &mut Vec<u64>) {
        let Some(gone) = self.sessions.remove(&session) else { return };
        self.deadlines.remove(&(gone.deadline, session));
        for key in gone.keys {
            self.leave(session, key);
            if let Some((number, arrived)) = self.waiting.remove(&(session, key)) {
                self.reply(number, arrived, format_args!("closed"));
            }
            touched.push(key);
        }
    }

    fn advance(&mut self, tick: u64) {
        self.tick = self.tick.max(tick);
        let mut touched = Vec::new();
        while let Some((&(deadline, session), _)) = self.deadlines.iter().next() {
            if deadline > self.tick {
                break;
            }
            self.remove(session, &mut touched);
        }
        for key in touched {
            self.hand_on(key);
        }
    }

    fn handle(&mut self, request: &Request) {
        let (number, key, tick) = (request.number, request.key, self.tick);
        match request.call {
            Call::Open(limit) => {
                if self.sessions.len() as u64 >= self.sizes.sessions {
                    return self.reply(number, tick, format_args!("refused at-capacity"));
                }
                if tick.saturating_add(limit) > LAST_TICK {
                    return self.reply(number, tick, format_args!("refused invalid"));
                }
                if limit == 0 {
                    return self.reply(number, tick, format_args!("refused zero-limit"));
                }
                let session = self.next_session;
                self.next_session += 1;
                self.sessions.insert(session, Session { limit, deadline: tick + limit, keys: HashSet::new() });
                self.deadlines.insert((tick + limit, session), ());
                self.reply(number, tick, format_args!("session {session}"));
            }
            Call::Beat(session) => {
                let Some(open) = self.sessions.get_mut(&session) else {
                    return self.reply(number, tick, format_args!("refused no-session"));
                };
                if tick.saturating_add(open.limit) > LAST_TICK {
                    return self.reply(number, tick, format_args!("refused invalid"));
                }
                self.deadlines.remove(&(open.deadline, session));
                open.deadline = tick + open.limit;
                self.deadlines.insert((open.deadline, session), ());
                self.reply(number, tick, format_args!("ok"));
            }
            Call::Close(session) => {
                if !self.sessions.contains_key(&session) {
                    return self.reply(number, tick, format_args!("refused no-session"));
                }
                self.reply(number, tick, format_args!("ok"));
                let mut touched = Vec::new();
                self.remove(session, &mut touched);
                for key in touched {
                    self.hand_on(key);
                }
            }
            Call::Acquire(session) => {
                if self.entries >= self.sizes.entries {
                    return self.reply(number, tick, format_args!("refused at-capacity"));
                }
                let Some(open) = self.sessions.get_mut(&session) else {
                    return self.reply(number, tick, format_args!("refused no-session"));
                };
                if !open.keys.insert(key) {
                    return self.reply(number, tick, format_args!("refused doubled"));
                }
                self.entries += 1;
                let queue = self.queues.entry(key).or_default();
                queue.push_back(session);
                if queue.len() == 1 {
                    return self.reply(number, tick, format_args!("held"));
                }
                self.waiting.insert((session, key), (number, tick));
            }
            Call::Release(session) => {
                let Some(open) = self.sessions.get_mut(&session) else {
                    return self.reply(number, tick, format_args!("refused no-session"));
                };
                if !open.keys.remove(&key) {
                    return self.reply(number, tick, format_args!("refused not-in"));
                }
                self.reply(number, tick, format_args!("ok"));
                self.leave(session, key);
                if let Some((own, arrived)) = self.waiting.remove(&(session, key)) {
                    self.reply(own, arrived, format_args!("left"));
                }
                self.hand_on(key);
            }
            Call::Try(session) => {
                if self.entries >= self.sizes.entries {
                    return self.reply(number, tick, format_args!("refused at-capacity"));
                }
                let Some(open) = self.sessions.get(&session) else {
                    return self.reply(number, tick, format_args!("refused no-session"));
                };
                if open.keys.contains(&key) {
                    return self.reply(number, tick, format_args!("refused doubled"));
                }
                if self.queues.contains_key(&key) {
                    return self.reply(number, tick, format_args!("busy"));
                }
                self.handle(&Request { number, key, call: Call::Acquire(session) });
            }
            Call::Owner => match self.queues.get(&key).and_then(|queue| queue.front()).copied() {
                Some(session) => self.reply(number, tick, format_args!("owner {session}")),
                None => self.reply(number, tick, format_args!("free")),
            },
            Call::Count => {
                let counts = (self.sessions.len(), self.entries, self.actors.len(), self.waiting.len());
                self.reply(number, tick, format_args!("stats {} {} {} {}", counts.0, counts.1, counts.2, counts.3));
            }
            Call::Bucket(burst, period) => {
                if self.buckets.len() as u64 >= self.sizes.buckets {
                    return self.reply(number, tick, format_args!("refused at-capacity"));
                }
                if burst == 0 || burst >> 32 != 0 || period == 0 || period >> 32 != 0 {
                    return self.reply(number, tick, format_args!("refused bad-bucket"));
                }
                self.buckets.push(Bucket { burst, period, origin: tick, tokens: burst, ended: 0 });
                self.reply(number, tick, format_args!("bucket {}", self.buckets.len() - 1));
            }
            Call::Take(bucket, n) => {
                let Some(bucket) = self.buckets.get_mut(bucket as usize) else {
                    return self.reply(number, tick, format_args!("refused no-bucket"));
                };
                if n > bucket.burst {
                    return self.reply(number, tick, format_args!("refused too-many"));
                }
                let now = (tick - bucket.origin) / bucket.period;
                let tokens = bucket.burst.min(bucket.tokens + (now - bucket.ended));
                if n > tokens {
                    let at = bucket.origin as u128 + (now + n - tokens) as u128 * bucket.period as u128;
                    return self.reply(number, tick, format_args!("short {at}"));
                }
                bucket.tokens = tokens - n;
                bucket.ended = now;
                self.reply(number, tick, format_args!("granted"));
            }
            Call::Spawn => {
                if self.actors.len() as u64 >= self.sizes.actors {
                    return self.reply(number, tick, format_args!("refused at-capacity"));
                }
                self.actors.push(Actor { is_idle: true, mailbox: VecDeque::new() });
                self.reply(number, tick, format_args!("actor {}", self.actors.len() - 1));
            }
            Call::Send(from, to, message) => {
                if self.messages >= self.sizes.messages {
                    return self.reply(number, tick, format_args!("refused at-capacity"));
                }
                if from >= self.actors.len() as u64 || to >= self.actors.len() as u64 {
                    return self.reply(number, tick, format_args!("refused no-actor"));
                }
                let actor = &mut self.actors[to as usize];
                actor.mailbox.push_back((from, message));
                self.messages += 1;
                if !actor.is_idle {
                    return self.reply(number, tick, format_args!("waits"));
                }
                actor.is_idle = false;
                self.queue.push_back(to);
                self.reply(number, tick, format_args!("queued"));
            }
            Call::Receive => {
                let Some(me) = self.queue.pop_front() else {
                    return self.reply(number, tick, format_args!("refused idle"));
                };
                let actor = &mut self.actors[me as usize];
                let (from, message) = actor.mailbox.pop_front().unwrap();
                self.messages -= 1;
                if actor.mailbox.is_empty() {
                    actor.is_idle = true;
                } else {
                    self.queue.push_back(me);
                }
                self.reply(number, tick, format_args!("message {me} {from} {message}"));
            }
        }
    }

    fn finish(&mut self) {
        let mut left: Vec<(u64, u64)> = self.waiting.drain().map(|(_, waiter)| waiter).collect();
        left.sort();
        for (number, arrived) in left {
            self.reply(number, arrived, format_args!("ended"));
        }
    }
}

fn session_key(session: u64, key: u64) -> (u64, u64) {
    (session, key)
}

async fn run_core(mut core: Core, mut requests: mpsc::Receiver<Vec<Request>>, texts: mpsc::Sender<Vec<u8>>) {
    let begin = Instant::now();
    loop {
        let batch = if core.waiting.is_empty() {
            Ok(requests.recv().await)
        } else {
            tokio::time::timeout(Duration::from_millis(1), requests.recv()).await
        };
        core.advance(begin.elapsed().as_millis() as u64);
        let has_ended = match batch {
            Err(_) => false,
            Ok(Some(batch)) => {
                for request in &batch {
                    core.handle(request);
                }
                false
            }
            Ok(None) => {
                core.finish();
                true
            }
        };
        if !core.out.is_empty() && texts.send(std::mem::take(&mut core.out)).await.is_err() {
            return;
        }
        if has_ended {
            return;
        }
    }
}

fn runtime() -> tokio::runtime::Runtime {
    tokio::runtime::Builder::new_current_thread().enable_time().build().unwrap()
}

async fn route(lanes: Vec<mpsc::Sender<Vec<Request>>>, texts: mpsc::Sender<Vec<u8>>) {
    let mut input = std::io::stdin().lock();
    let mut block = vec![0u8; BLOCK];
    let (mut filled, mut last, mut is_long) = (0, 0u64, false);
    let mut batches: Vec<Vec<Request>> = lanes.iter().map(|_| Vec::new()).collect();
    loop {
        let n = input.read(&mut block[filled..]).unwrap();
        let mut bad = Vec::new();
        filled += n;
        let mut from = 0;
        while let Some(len) = block[from..filled].iter().position(|byte| *byte == b'\n') {
            last += 1;
            match request_of(last, &block[from..from + len]).filter(|_| !is_long) {
                None => writeln!(bad, "{last} bad").unwrap(),
                Some(request) => batches[core_of(request.key, lanes.len() as u64) as usize].push(request),
            }
            is_long = false;
            from += len + 1;
        }
        block.copy_within(from..filled, 0);
        filled -= from;
        if filled == block.len() {
            is_long = true;
            filled = 0;
        }
        if n == 0 && (filled > 0 || is_long) {
            last += 1;
            writeln!(bad, "{last} bad").unwrap();
        }
        for (lane, batch) in lanes.iter().zip(&mut batches) {
            if !batch.is_empty() && lane.send(std::mem::take(batch)).await.is_err() {
                return;
            }
        }
        if !bad.is_empty() && texts.send(bad).await.is_err() {
            return;
        }
        if n == 0 {
            return;
        }
    }
}

fn main() {
    let words: Vec<u64> = std::env::args().skip(1).map(|word| word.parse().unwrap()).collect();
    let [cores, sessions, entries, buckets, actors, messages] = words[..] else { panic!("six numbers") };
    let sizes = Sizes { sessions, entries, buckets, actors, messages };
    let (texts, mut written) = mpsc::channel::<Vec<u8>>(PLACES);
    let writer = std::thread::spawn(move || {
        runtime().block_on(async move {
            let mut out = std::io::stdout().lock();
            while let Some(text) = written.recv().await {
                out.write_all(&text).unwrap();
            }
            out.flush().unwrap();
        })
    });
    let mut lanes = Vec::new();
    let mut threads = Vec::new();
    for number in 0..cores {
        let (lane, requests) = mpsc::channel(PLACES);
        let texts = texts.clone();
        lanes.push(lane);
        threads.push(std::thread::spawn(move || runtime().block_on(run_core(Core::new(number, sizes), requests, texts))));
    }
    runtime().block_on(route(lanes, texts));
    for thread in threads {
        thread.join().unwrap();
    }
    writer.join().unwrap();
}
