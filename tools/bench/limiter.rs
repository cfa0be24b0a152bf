//! The workload of `mono_bench buckets` over plain Rust: the same words, the same random numbers, the same line.
//!
//! rustc --edition 2021 -C opt-level=3 tools/bench/limiter.rs -o FOLDER/limiter
//!
//! A bucket keeps the tokens that it had at the last period which it has seen, and is filled by one division when it is
//! taken from.

use std::process::ExitCode;

#[derive(Clone, Copy)]
struct Bucket {
    burst: u32,
    period: u32,
    tokens: u32,
    origin: u64,
    ended: u64,
}

enum Take {
    Granted,
    Short(u128),
}

struct Limiter {
    buckets: Vec<Bucket>,
    greatest: u64,
}

impl Limiter {
    fn bucket(&mut self, burst: u32, period: u32) {
        let origin = self.greatest;
        self.buckets.push(Bucket { burst, period, tokens: burst, origin, ended: 0 });
    }

    fn take(&mut self, bucket: u64, n: u64) -> Option<Take> {
        let bucket = self.buckets.get_mut(bucket as usize)?;
        if n > u64::from(bucket.burst) {
            return None;
        }
        let ended = (self.greatest - bucket.origin) / u64::from(bucket.period);
        let gained = ended - bucket.ended;
        bucket.tokens = (u64::from(bucket.tokens) + gained).min(u64::from(bucket.burst)) as u32;
        bucket.ended = ended;
        if n <= u64::from(bucket.tokens) {
            bucket.tokens -= n as u32;
            return Some(Take::Granted);
        }
        let wanted = u128::from(ended) + u128::from(n - u64::from(bucket.tokens));
        Some(Take::Short(u128::from(bucket.origin) + wanted * u128::from(bucket.period)))
    }

    fn clock(&mut self, tick: u64) {
        self.greatest = self.greatest.max(tick);
    }
}

struct Random {
    state: u64,
}

impl Random {
    fn next(&mut self) -> u64 {
        self.state = self.state.wrapping_mul(6364136223846793005).wrapping_add(1442695040888963407);
        self.state >> 33
    }

    fn below(&mut self, end: u64) -> u64 {
        self.next().wrapping_mul(end) >> 31
    }
}

fn run(buckets: u64, takes: u64, step: u64) -> (u64, u64) {
    let mut random = Random { state: 7 };
    let mut limiter = Limiter { buckets: Vec::new(), greatest: 0 };
    for _ in 0..buckets {
        let burst = random.below(16) + 1;
        let period = random.below(1000) + 1;
        limiter.bucket(burst as u32, period as u32);
    }
    let (mut granted, mut sum, mut millis) = (0u64, 0u64, 0u64);
    for i in 0..takes {
        if i % 1024 == 0 {
            millis += step;
            limiter.clock(millis);
        }
        let bucket = random.below(buckets);
        let n = random.below(4) + 1;
        let value = match limiter.take(bucket, n) {
            Some(Take::Granted) => {
                granted += 1;
                1
            }
            Some(Take::Short(tick)) => u64::try_from(tick).unwrap_or(2),
            None => 3,
        };
        sum = sum.wrapping_mul(31).wrapping_add(value);
    }
    (granted, sum)
}

fn main() -> ExitCode {
    let words: Vec<u64> = std::env::args().skip(1).filter_map(|word| word.parse().ok()).collect();
    let [buckets, takes, step] = words[..] else {
        println!("usage: limiter BUCKETS TAKES STEP");
        return ExitCode::from(2);
    };
    let (granted, sum) = run(buckets, takes, step);
    println!("{buckets} buckets {takes} takes step {step} granted {granted} sum {sum}");
    ExitCode::SUCCESS
}
