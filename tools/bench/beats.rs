//! What `mono_bench beats` does, by a plain keeper of sessions over BTreeMap and HashMap: the peer of its figures.
//! rustc -O -C opt-level=3 tools/bench/beats.rs -o beats ; ./beats 1000000 60
use std::collections::{BTreeSet, HashMap, VecDeque};

struct Session {
    closes_at: u64,
    limit: u64,
    keys: Vec<u64>,
}

#[derive(Default)]
struct Keeper {
    sessions: HashMap<u64, Session>,
    // by the tick at which the session is closed
    deadlines: BTreeSet<(u64, u64)>,
    queues: HashMap<u64, VecDeque<u64>>,
    next: u64,
    greatest: u64,
}

impl Keeper {
    fn open(&mut self, limit: u64) -> u64 {
        let number = self.next;
        self.next += 1;
        let closes_at = self.greatest + limit;
        self.deadlines.insert((closes_at, number));
        self.sessions.insert(number, Session { closes_at, limit, keys: Vec::new() });
        number
    }

    fn beat(&mut self, number: u64) -> bool {
        let Some(session) = self.sessions.get_mut(&number) else {
            return false;
        };
        self.deadlines.remove(&(session.closes_at, number));
        session.closes_at = self.greatest + session.limit;
        self.deadlines.insert((session.closes_at, number));
        true
    }

    fn acquire(&mut self, number: u64, key: u64) -> Option<bool> {
        let session = self.sessions.get_mut(&number)?;
        let queue = self.queues.entry(key).or_default();
        if session.keys.contains(&key) {
            return None;
        }
        session.keys.push(key);
        queue.push_back(number);
        Some(queue.len() == 1)
    }

    fn owner(&self, key: u64) -> Option<u64> {
        self.queues.get(&key)?.front().copied()
    }

    fn close(&mut self, number: u64) {
        let Some(session) = self.sessions.remove(&number) else {
            return;
        };
        self.deadlines.remove(&(session.closes_at, number));
        for key in session.keys {
            if let Some(queue) = self.queues.get_mut(&key) {
                queue.retain(|other| *other != number);
                if queue.is_empty() {
                    self.queues.remove(&key);
                }
            }
        }
    }

    fn clock(&mut self, tick: u64, closed: &mut Vec<u64>) {
        self.greatest = self.greatest.max(tick);
        while let Some(&(at, number)) = self.deadlines.first() {
            if at > self.greatest {
                return;
            }
            closed.push(number);
            self.close(number);
        }
    }
}

fn main() {
    let words: Vec<u64> = std::env::args().skip(1).map(|word| word.parse().expect("a number")).collect();
    let (count, seconds) = (words[0], words[1]);
    let mut keeper = Keeper::default();
    for i in 0..count {
        let number = keeper.open(30000);
        keeper.acquire(number, i / 2);
    }
    let (mut beats, mut closings, mut order, mut at) = (0u64, 0u64, 0u64, 0u64);
    let mut closed = Vec::new();
    for second in 1..=seconds {
        for _ in 0..count / 10 {
            if at % 16 != 0 && keeper.beat(at) {
                beats += 1;
            }
            at = if at + 1 < count { at + 1 } else { 0 };
        }
        closed.clear();
        keeper.clock(second * 1000, &mut closed);
        for number in &closed {
            closings += 1;
            order = order.wrapping_mul(31).wrapping_add(*number).wrapping_add(1);
        }
    }
    let owners: u64 = (0..count / 2).filter_map(|key| keeper.owner(key)).fold(0, u64::wrapping_add);
    println!("{count} sessions {seconds} seconds beats {beats} closed {closings} order {order} owners {owners}");
}
