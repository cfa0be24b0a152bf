//! The loads of `mono_bench channels` on tokio's current-thread runtime:
//!   tokio mpsc|permits|oneshot|threads|waits|jobs N
//!
//! `mpsc` sends over tokio's channel of one place, and `permits` takes turns at tokio's semaphore. In `oneshot`, a task sends
//! N requests to another over a channel of one place, each with the sender of a new oneshot channel for the reply. `threads`
//! sends from a runtime of one thread to a runtime of another, over 64 places. `waits` has N tasks wait for a permit each, and
//! `jobs` awaits N blocking jobs, one after another, on one worker.
//! `tools/bench/run.py` builds it with cargo over Debian's package `librust-tokio-dev`.
use std::rc::Rc;
use tokio::runtime::{Builder, Runtime};
use tokio::sync::mpsc::{channel, Receiver, Sender};
use tokio::sync::{oneshot, Semaphore};
use tokio::task::{spawn_local, yield_now, LocalSet};

fn runtime() -> Runtime {
    Builder::new_current_thread().build().expect("a runtime")
}

/// Runs a future and the tasks that it spawns on a runtime of this thread.
fn run<T>(future: impl std::future::Future<Output = T>) -> T {
    LocalSet::new().block_on(&runtime(), future)
}

async fn send(sender: Sender<u64>, count: u64) -> u64 {
    for number in 0..count {
        if sender.send(number).await.is_err() {
            return number;
        }
    }
    count
}

/// Receives all numbers; returns their sum, each times its place.
async fn receive(mut receiver: Receiver<u64>) -> u64 {
    let (mut place, mut sum) = (0u64, 0u64);
    while let Some(number) = receiver.recv().await {
        place = place.wrapping_add(1);
        sum = sum.wrapping_add(number.wrapping_mul(place));
    }
    sum
}

fn mpsc(count: u64) -> u64 {
    run(async move {
        let (sender, mut receiver) = channel(1);
        spawn_local(send(sender, count));
        let taker = spawn_local(async move {
            let mut came = 0;
            while receiver.recv().await.is_some() {
                came += 1;
            }
            came
        });
        taker.await.expect("an answer")
    })
}

/// Holds a permit over one turn, again and again.
async fn take(permits: Rc<Semaphore>, count: u64) -> u64 {
    for _ in 0..count {
        let permit = permits.acquire().await.expect("a permit");
        yield_now().await;
        drop(permit);
    }
    count
}

fn permits(count: u64) -> u64 {
    run(async move {
        let permits = Rc::new(Semaphore::new(1));
        spawn_local(take(permits.clone(), count));
        spawn_local(take(permits, count)).await.expect("an answer")
    })
}

/// A number, and the sender of the channel for the reply to it.
type Request = (u64, oneshot::Sender<u64>);

/// Replies to each request with its number.
async fn reply(mut requests: Receiver<Request>) {
    while let Some((number, sender)) = requests.recv().await {
        if sender.send(number).is_err() {
            return;
        }
    }
}

/// Sends requests one after another. Returns how many had the right reply.
async fn ask(requests: Sender<Request>, count: u64) -> u64 {
    for number in 0..count {
        let (sender, receiver) = oneshot::channel();
        if requests.send((number, sender)).await.is_err() || receiver.await != Ok(number) {
            return number;
        }
    }
    count
}

fn once(count: u64) -> u64 {
    run(async move {
        let (sender, receiver) = channel(1);
        spawn_local(reply(receiver));
        spawn_local(ask(sender, count)).await.expect("an answer")
    })
}

fn threads(count: u64) -> u64 {
    let (sender, receiver) = channel(64);
    let other = std::thread::spawn(move || run(async move { spawn_local(send(sender, count)).await.expect("an answer") }));
    let sum = run(async move { spawn_local(receive(receiver)).await.expect("an answer") });
    other.join().expect("a thread");
    sum
}

/// Makes tasks that each wait for a permit, and then adds a permit for each.
fn waits(count: u64) -> u64 {
    run(async move {
        let semaphore = Rc::new(Semaphore::new(0));
        let mut tasks = Vec::new();
        for _ in 0..count {
            let semaphore = semaphore.clone();
            tasks.push(spawn_local(async move { semaphore.acquire().await.expect("a permit").forget() }));
        }
        yield_now().await;
        semaphore.add_permits(count as usize);
        for task in tasks {
            task.await.expect("an answer");
        }
        count
    })
}

/// Awaits blocking jobs one after another, on one worker.
fn jobs(count: u64) -> u64 {
    let runtime = Builder::new_current_thread().max_blocking_threads(1).build().expect("a runtime");
    runtime.block_on(async move {
        let mut sum = 0;
        for number in 0..count {
            sum += tokio::task::spawn_blocking(move || number).await.expect("an output");
        }
        sum
    })
}

fn main() {
    let words: Vec<String> = std::env::args().collect();
    let [_, name, count] = words.as_slice() else {
        return eprintln!("usage: tokio mpsc|permits|oneshot|threads|waits|jobs N");
    };
    let count = count.parse().expect("a number");
    let answer = match name.as_str() {
        "mpsc" => mpsc(count),
        "permits" => permits(count),
        "oneshot" => once(count),
        "waits" => waits(count),
        "jobs" => jobs(count),
        _ => threads(count),
    };
    println!("channels {name} {count}: {answer}");
}
