// Two workloads of mono_bench turns in plain Rust, over a queue of task numbers, a table of tasks and an ordered map of sleeps:
//   turns pair|sleeps N [RUNS]
// Build: rustc -C opt-level=3 turns.rs
use std::collections::{BTreeMap, VecDeque};

#[derive(Clone, Copy)]
enum Work {
    Wakes(usize, u64),
    Sleeps(u64),
    Rises,
    Gone,
}

#[derive(Clone, Copy)]
struct Task {
    work: Work,
    is_queued: bool,
}

#[derive(Default)]
struct Desk {
    tasks: Vec<Task>,
    queue: VecDeque<usize>,
    sleeps: BTreeMap<(u64, u64), usize>,
    made: u64,
    done: u64,
}

impl Desk {
    fn spawn(&mut self, work: Work) {
        self.queue.push_back(self.tasks.len());
        self.tasks.push(Task { work, is_queued: true });
    }

    fn wake(&mut self, task: usize) {
        if let Some(it) = self.tasks.get_mut(task) {
            if !it.is_queued {
                it.is_queued = true;
                self.queue.push_back(task);
            }
        }
    }

    // A turn; false where no task is queued.
    fn turn(&mut self) -> bool {
        let Some(me) = self.queue.pop_front() else {
            return false;
        };
        self.tasks[me].is_queued = false;
        match self.tasks[me].work {
            Work::Wakes(other, left) => {
                self.done += 1;
                self.wake(other);
                self.tasks[me].work = if left < 2 { Work::Gone } else { Work::Wakes(other, left - 2) };
            }
            Work::Sleeps(tick) => {
                self.sleeps.insert((tick, self.made), me);
                self.made += 1;
                self.tasks[me].work = Work::Rises;
            }
            Work::Rises => {
                self.done += 1;
                self.tasks[me].work = Work::Gone;
            }
            Work::Gone => {}
        }
        true
    }

    fn run(&mut self) {
        loop {
            while self.turn() {}
            let Some((&(tick, _), _)) = self.sleeps.first_key_value() else {
                return;
            };
            while let Some(first) = self.sleeps.first_entry() {
                if first.key().0 > tick {
                    break;
                }
                let task = first.remove();
                self.wake(task);
            }
        }
    }
}

// The generator of mono_bench turns, at the seed 7.
fn next(state: &mut (u32, u32)) -> u32 {
    let last = state.1;
    let mut old = state.0 ^ (state.0 << 17);
    old = old ^ last ^ (old >> 7) ^ (last >> 16);
    *state = (last, old);
    last.wrapping_add(old)
}

fn main() {
    let words: Vec<String> = std::env::args().collect();
    let count: u64 = words[2].parse().unwrap();
    let runs: u64 = words.get(3).map_or(1, |it| it.parse().unwrap());
    let mut done = 0;
    for _ in 0..runs {
        let mut desk = Desk::default();
        match words[1].as_str() {
            "pair" => {
                desk.spawn(Work::Wakes(1, count.saturating_sub(1)));
                desk.spawn(Work::Wakes(0, count.saturating_sub(2)));
            }
            _ => {
                let mut state = (0, 7);
                for _ in 0..count {
                    let tick = next(&mut state);
                    desk.spawn(Work::Sleeps(u64::from(tick)));
                }
            }
        }
        desk.run();
        done = desk.done;
    }
    println!("{} {count}: {done}", words[1]);
}
