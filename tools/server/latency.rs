// latency PROGRAM RATE FILE WORDS..: runs a server with these words, and writes the file's lines at a rate of lines a
// second. Prints the median, the 99th and the 99.9th percentile of the milliseconds from the write of a line to the read of
// its reply. A request that was answered in a later tick than it came in waited for a lock, and does not count.
use std::io::{Read, Write};
use std::process::{ChildStdin, Command, Stdio};
use std::sync::atomic::{AtomicU64, Ordering::Relaxed};
use std::time::{Duration, Instant};
use std::{env, fs, thread};

/// The lines, and when each was written, in nanoseconds from the beginning.
struct Load {
    text: Vec<u8>,
    ends: Vec<usize>,
    times: Vec<AtomicU64>,
    begin: Instant,
}

impl Load {
    fn new(text: Vec<u8>) -> Load {
        let ends: Vec<usize> = (1..=text.len()).filter(|end| text[end - 1] == b'\n').collect();
        let times = (0..=ends.len()).map(|_| AtomicU64::new(0)).collect();
        Load { text, ends, times, begin: Instant::now() }
    }

    fn now(&self) -> u64 {
        self.begin.elapsed().as_nanos() as u64
    }

    /// Writes each line when it is due.
    fn write(&self, rate: f64, mut input: ChildStdin) {
        let (mut done, mut from) = (0, 0);
        while done < self.ends.len() {
            let due = self.ends.len().min((self.now() as f64 / 1e9 * rate) as usize);
            if due == done {
                thread::sleep(Duration::from_micros(50));
                continue;
            }
            let now = self.now();
            self.times[done + 1..=due].iter().for_each(|time| time.store(now, Relaxed));
            input.write_all(&self.text[from..self.ends[due - 1]]).expect("the server reads");
            (done, from) = (due, self.ends[due - 1]);
        }
    }

    /// The delay of a reply that was read now, if its request was answered as it came.
    fn delay(&self, line: &[u8], now: u64) -> Option<u64> {
        let mut words = line.split(|byte| *byte == b' ');
        let number: usize = std::str::from_utf8(words.next()?).ok()?.parse().ok()?;
        let (arrived, tick) = (words.nth(1)?, words.next()?);
        (arrived == tick).then(|| now - self.times[number].load(Relaxed))
    }

    /// Reads the replies to the end, and returns their delays.
    fn read(&self, mut output: impl Read) -> Vec<u64> {
        let (mut block, mut tail, mut delays) = (vec![0; 1 << 20], Vec::new(), Vec::new());
        loop {
            let many = output.read(&mut block).expect("the server writes");
            if many == 0 {
                return delays;
            }
            let now = self.now();
            tail.extend_from_slice(&block[..many]);
            let whole = tail.iter().rposition(|byte| *byte == b'\n').map_or(0, |at| at + 1);
            delays.extend(tail[..whole].split(|byte| *byte == b'\n').filter_map(|line| self.delay(line, now)));
            tail.drain(..whole);
        }
    }
}

fn main() {
    let words: Vec<String> = env::args().collect();
    let rate: f64 = words[2].parse().expect("a rate");
    let load = Load::new(fs::read(&words[3]).expect("a file of lines"));
    let server = Command::new(&words[1]).args(&words[4..]).stdin(Stdio::piped()).stdout(Stdio::piped()).spawn();
    let mut server = server.expect("a server");
    let (input, output) = (server.stdin.take().expect("its input"), server.stdout.take().expect("its output"));
    let mut delays = thread::scope(|scope| {
        scope.spawn(|| load.write(rate, input));
        load.read(output)
    });
    server.wait().expect("its end");
    delays.sort_unstable();
    let at = |part: f64| delays[(delays.len() as f64 * part) as usize] as f64 / 1e6;
    println!("{:.2} ms median, {:.2} ms 99th, {:.2} ms 99.9th", at(0.5), at(0.99), at(0.999));
}
