//! The plain ring beside `mono_bench ring`: a `VecDeque` for each mailbox and one for the queue, without timeouts.
//!
//! rustc -O -C opt-level=3 tools/bench/ring.rs -o ring && ./ring ACTORS TURNS BURST
//!
//! It prints the line that `mono_bench ring ACTORS TURNS BURST` prints.
use std::collections::VecDeque;

#[derive(Clone, Copy, PartialEq)]
enum Mode {
    Idle,
    Queued,
    Running,
}

struct Actor {
    mode: Mode,
    mailbox: VecDeque<(u64, u64)>,
}

struct Actors {
    places: Vec<Option<Actor>>,
    queue: VecDeque<u64>,
    turn: Option<u64>,
    most_messages: u64,
    messages: u64,
}

impl Actors {
    fn send(&mut self, from: u64, to: u64, message: u64) -> Option<bool> {
        if self.messages >= self.most_messages || !self.is_live(from) {
            return None;
        }
        let actor = self.places.get_mut(to as usize)?.as_mut()?;
        actor.mailbox.push_back((from, message));
        self.messages += 1;
        let was_idle = actor.mode == Mode::Idle;
        if was_idle {
            actor.mode = Mode::Queued;
            self.queue.push_back(to);
        }
        Some(was_idle)
    }

    fn is_live(&self, actor: u64) -> bool {
        matches!(self.places.get(actor as usize), Some(Some(_)))
    }

    fn begin(&mut self) -> Option<(u64, Option<(u64, u64)>)> {
        let front = self.queue.pop_front()?;
        let actor = self.places[front as usize].as_mut()?;
        actor.mode = Mode::Running;
        let got = actor.mailbox.pop_front();
        if got.is_some() {
            self.messages -= 1;
        }
        self.turn = Some(front);
        Some((front, got))
    }

    fn end(&mut self) {
        let Some(me) = self.turn.take() else { return };
        let Some(actor) = self.places[me as usize].as_mut() else { return };
        if actor.mailbox.is_empty() {
            actor.mode = Mode::Idle;
        } else {
            actor.mode = Mode::Queued;
            self.queue.push_back(me);
        }
    }
}

fn burst(actors: &mut Actors, me: u64, messages: u64) -> Option<()> {
    for message in 0..messages {
        actors.send(me, me, message)?;
    }
    for _ in 0..messages {
        actors.begin()?;
        actors.end();
    }
    Some(())
}

fn hand_round(count: u64, turns: u64, messages: u64) -> Option<u64> {
    let mut actors = Actors {
        places: Vec::new(),
        queue: VecDeque::new(),
        turn: None,
        most_messages: messages.max(1),
        messages: 0,
    };
    for _ in 0..count {
        actors.places.push(Some(Actor { mode: Mode::Idle, mailbox: VecDeque::new() }));
    }
    for me in 0..count {
        burst(&mut actors, me, messages)?;
    }
    actors.send(0, 0, 0)?;
    let mut sum = 0u64;
    for _ in 0..turns {
        let (me, got) = actors.begin()?;
        let (_, message) = got?;
        let after = me.wrapping_add(1);
        let next = if after < count { after } else { 0 };
        actors.send(me, next, message.wrapping_add(1))?;
        actors.end();
        sum = sum.wrapping_add(message ^ me);
    }
    Some(sum)
}

fn main() {
    let words: Vec<u64> = std::env::args().skip(1).filter_map(|word| word.parse().ok()).collect();
    let [count, turns, messages] = words[..] else {
        println!("usage: ring ACTORS TURNS BURST");
        std::process::exit(2);
    };
    match hand_round(count, turns, messages) {
        None => println!("no ring of {count} actors"),
        Some(sum) => println!("{count} actors {turns} turns sum {sum}"),
    }
}
