//! The commands `sessions`, `limiter` and `actors` in plain Rust: the same words, lines and answers.
//!
//! rustc --edition 2021 -C opt-level=3 tools/bench/services.rs -o FOLDER/services
use std::collections::{BTreeSet, BTreeMap, HashMap, VecDeque};
use std::io::{Read, Write};

struct W<'a> { b: &'a [u8] }
impl<'a> W<'a> {
    fn word(&mut self) -> &'a [u8] {
        let n = self.b.iter().position(|c| *c == b' ').unwrap_or(self.b.len());
        let (a, r) = self.b.split_at(n);
        self.b = if r.is_empty() { r } else { &r[1..] };
        a
    }
    fn u64(&mut self) -> u64 { let w = self.word(); num(w) }
    fn u128(&mut self) -> u128 {
        let w = self.word();
        if w.len() < 19 { return num(w) as u128; }
        let mut n = 0u128; for c in w { assert!(c.is_ascii_digit()); n = n.checked_mul(10).unwrap().checked_add((c - b'0') as u128).unwrap(); } n
    }
}
fn num(w: &[u8]) -> u64 {
    assert!(!w.is_empty());
    if w.len() < 19 { let mut n = 0u64; for c in w { assert!(c.is_ascii_digit()); n = n * 10 + (c - b'0') as u64; } return n; }
    let mut n = 0u64; for c in w { assert!(c.is_ascii_digit()); n = n.checked_mul(10).unwrap().checked_add((c - b'0') as u64).unwrap(); } n
}
fn put(o: &mut Vec<u8>, mut n: u64) {
    let mut t = [0u8; 20]; let mut i = 20;
    loop { i -= 1; t[i] = b'0' + (n % 10) as u8; n /= 10; if n == 0 { break; } }
    o.extend_from_slice(&t[i..]);
}
fn line(o: &mut Vec<u8>, s: &str) { o.extend_from_slice(s.as_bytes()); o.push(b'\n'); }
fn with(o: &mut Vec<u8>, s: &str, n: u64) { o.extend_from_slice(s.as_bytes()); put(o, n); o.push(b'\n'); }

enum Call { Open(u64), Beat(u64), Close(u64), Acquire(u64, u64), Release(u64, u64), Owner(u64), Clock(u128),
  Bucket(u64, u64), Take(u64, u64), Retry(u64, u64, u64), Fail(u64), Done(u64),
  Actor, Send(u64, u64, u64), Timeout(u64, u64), Turn(u32, u32, bool) }

fn parse(all: &[u8], sends: &mut Vec<(u64, u64)>) -> Vec<Call> {
    let mut calls = Vec::new();
    let mut rest = all;
    while let Some(n) = rest.iter().position(|c| *c == b'\n') {
        let l = &rest[..n]; rest = &rest[n + 1..];
        let mut w = W { b: l };
        calls.push(match w.word() {
            b"open" => Call::Open(w.u64()), b"beat" => Call::Beat(w.u64()), b"close" => Call::Close(w.u64()),
            b"acquire" => Call::Acquire(w.u64(), w.u64()), b"release" => Call::Release(w.u64(), w.u64()), b"owner" => Call::Owner(w.u64()),
            b"clock" => Call::Clock(w.u128()),
            b"bucket" => Call::Bucket(w.u64(), w.u64()), b"take" => Call::Take(w.u64(), w.u64()),
            b"retry" => Call::Retry(w.u64(), w.u64(), w.u64()), b"fail" => Call::Fail(w.u64()), b"done" => Call::Done(w.u64()),
            b"actor" => Call::Actor, b"send" => Call::Send(w.u64(), w.u64(), w.u64()), b"timeout" => Call::Timeout(w.u64(), w.u64()),
            b"" => continue,
            b"turn;" => { let a = sends.len() as u32; let stop;
                loop { match w.word() { b"send" => { let t = w.u64(); let m = w.word(); let m = num(&m[..m.len() - 1]); sends.push((t, m)); } b"stay" => { stop = false; break } b"stop" => { stop = true; break } _ => panic!("bad") } }
                Call::Turn(a, sends.len() as u32, stop) }
            _ => panic!("bad line"),
        });
    }
    calls
}
struct Session { limit: u64, deadline: u64, keys: Vec<u64> }
fn sessions(calls: &[Call], o: &mut Vec<u8>, most: u64, entries: u64) {
    let mut s: Vec<Option<Session>> = Vec::new();
    let mut d: BTreeSet<(u64, u64)> = BTreeSet::new();
    let mut q: HashMap<u64, VecDeque<u64>> = HashMap::new();
    let (mut live, mut inq, mut now) = (0u64, 0u64, 0u64);
    fn leave(q: &mut HashMap<u64, VecDeque<u64>>, k: u64, i: u64) { let l = q.get_mut(&k).unwrap(); if l[0] == i { l.pop_front(); } else { let p = l.iter().position(|x| *x == i).unwrap(); l.remove(p); } if l.is_empty() { q.remove(&k); } }
    for c in calls { match *c {
        Call::Open(l) => if live == most { line(o, "refused at-capacity") } else if l == 0 { line(o, "refused zero-limit") } else {
            let i = s.len() as u64; live += 1; d.insert((now + l, i)); s.push(Some(Session { limit: l, deadline: now + l, keys: Vec::new() })); with(o, "session ", i) },
        Call::Beat(i) => match s.get_mut(i as usize).and_then(|x| x.as_mut()) { None => line(o, "refused no-session"), Some(x) => {
            let t = now + x.limit; if t != x.deadline { d.remove(&(x.deadline, i)); d.insert((t, i)); x.deadline = t; } line(o, "ok") } },
        Call::Close(i) => match s.get_mut(i as usize).and_then(|x| x.take()) { None => line(o, "refused no-session"), Some(x) => {
            d.remove(&(x.deadline, i)); for k in x.keys { leave(&mut q, k, i); inq -= 1; } live -= 1; line(o, "ok") } },
        Call::Acquire(i, k) => match s.get_mut(i as usize).and_then(|x| x.as_mut()) { None => line(o, "refused no-session"), Some(x) => {
            if x.keys.contains(&k) { line(o, "refused doubled") } else if inq == entries { line(o, "refused at-capacity") } else {
            x.keys.push(k); inq += 1; let l = q.entry(k).or_default(); l.push_back(i); line(o, if l.len() == 1 { "held" } else { "waits" }) } } },
        Call::Release(i, k) => match s.get_mut(i as usize).and_then(|x| x.as_mut()) { None => line(o, "refused no-session"), Some(x) =>
            match x.keys.iter().position(|y| *y == k) { None => line(o, "refused not-in"), Some(p) => { x.keys.swap_remove(p); leave(&mut q, k, i); inq -= 1; line(o, "ok") } } },
        Call::Owner(k) => match q.get(&k) { None => line(o, "free"), Some(l) => with(o, "owner ", l[0]) },
        Call::Clock(n) => { now = now.max((n / 1_000_000) as u64); o.extend_from_slice(b"closed");
            while let Some(&(t, i)) = d.first() { if t > now { break; } d.pop_first(); let x = s[i as usize].take().unwrap();
                for k in x.keys { leave(&mut q, k, i); inq -= 1; } live -= 1; o.push(b' '); put(o, i); } o.push(b'\n') }
        _ => panic!() } }
}
struct Bucket { most: u64, every: u64, tokens: u64, at: u64 }
struct Retry { base: u64, cap: u64, most: u64, failed: u64, waits: u64 }
fn limiter(calls: &[Call], o: &mut Vec<u8>, mb: u64, mr: u64) {
    let mut b: Vec<Bucket> = Vec::new();
    let mut r: Vec<Option<Retry>> = Vec::new(); let mut live = 0u64;
    let mut d: BTreeSet<(u64, u64)> = BTreeSet::new(); let mut now = 0u64;
    for c in calls { match *c {
        Call::Bucket(m, p) => if b.len() as u64 == mb { line(o, "refused at-capacity") } else if m == 0 || p == 0 || m >> 32 != 0 || p >> 32 != 0 { line(o, "refused bad-bucket") } else { with(o, "bucket ", b.len() as u64); b.push(Bucket { most: m, every: p, tokens: m, at: now / p }) },
        Call::Take(i, k) => match b.get_mut(i as usize) { None => line(o, "refused no-bucket"), Some(x) => if k > x.most { line(o, "refused too-many") } else {
            let p = now / x.every; x.tokens = x.most.min(x.tokens + (p - x.at)); x.at = p;
            if x.tokens >= k { x.tokens -= k; line(o, "granted") } else { with(o, "short ", (p + k - x.tokens) * x.every) } } },
        Call::Retry(ba, ca, m) => if ba == 0 || ca < ba || m == 0 || m >> 32 != 0 { line(o, "refused bad-retry") } else if live == mr { line(o, "refused at-capacity") } else { with(o, "retry ", r.len() as u64); live += 1; r.push(Some(Retry { base: ba, cap: ca, most: m, failed: 0, waits: 0 })) },
        Call::Fail(i) => match r.get_mut(i as usize).and_then(|x| x.as_mut()) { None => line(o, "refused no-retry"), Some(x) => if x.waits != 0 { line(o, "refused waiting") } else {
            if x.failed + 1 >= x.most { r[i as usize] = None; live -= 1; line(o, "gave-up") } else {
            let dl = if x.failed >= 64 || x.base > x.cap >> x.failed { x.cap } else { x.base << x.failed };
            x.failed += 1; x.waits = now + dl; d.insert((now + dl, i)); with(o, "again ", now + dl) } } },
        Call::Done(i) => match r.get_mut(i as usize).and_then(|x| x.take()) { None => line(o, "refused no-retry"), Some(x) => { if x.waits != 0 { d.remove(&(x.waits, i)); } live -= 1; line(o, "ok") } },
        Call::Clock(n) => { now = now.max((n / 1_000_000) as u64); o.extend_from_slice(b"due");
            while let Some(&(t, i)) = d.first() { if t > now { break; } d.pop_first(); r[i as usize].as_mut().unwrap().waits = 0; o.push(b' '); put(o, i); } o.push(b'\n') }
        _ => panic!() } }
}
struct Actor { mail: VecDeque<(u64, u64)>, timeout: u64, deadline: u64, queued: bool, due: bool }
fn actors(calls: &[Call], sends: &[(u64, u64)], o: &mut Vec<u8>, ma: u64, mm: u64) {
    let mut a: Vec<Option<Actor>> = Vec::new(); let mut q: VecDeque<u64> = VecDeque::new();
    let mut d: BTreeSet<(u64, u64)> = BTreeSet::new(); let (mut now, mut live, mut inm) = (0u64, 0u64, 0u64);
    macro_rules! send { ($from:expr, $to:expr, $m:expr, $nl:expr) => {{
        let s = match a.get_mut($to as usize).and_then(|x| x.as_mut()) { None => "refused no-actor", Some(x) => if inm == mm { "refused at-capacity" } else {
            inm += 1; x.mail.push_back(($from, $m));
            if x.queued { "waits" } else { x.queued = true; q.push_back($to); if x.deadline != 0 { d.remove(&(x.deadline, $to)); x.deadline = 0; } "queued" } } };
        o.extend_from_slice(s.as_bytes()); if $nl { o.push(b'\n') } }} }
    for c in calls { match *c {
        Call::Actor => if live == ma { line(o, "refused at-capacity") } else { live += 1; with(o, "actor ", a.len() as u64); a.push(Some(Actor { mail: VecDeque::new(), timeout: 0, deadline: 0, queued: false, due: false })) },
        Call::Send(f, t, m) => { if a.get(f as usize).map_or(true, |x| x.is_none()) { line(o, "refused no-actor"); continue } send!(f, t, m, true) }
        Call::Timeout(i, t) => match a.get_mut(i as usize).and_then(|x| x.as_mut()) { None => line(o, "refused no-actor"), Some(x) => { x.timeout = t;
            if !x.queued { if x.deadline != 0 { d.remove(&(x.deadline, i)); x.deadline = 0 } if t != 0 { x.deadline = now + t; d.insert((now + t, i)); } } line(o, "ok") } },
        Call::Clock(n) => { now = now.max((n / 1_000_000) as u64); o.extend_from_slice(b"due");
            while let Some(&(t, i)) = d.first() { if t > now { break; } d.pop_first(); let x = a[i as usize].as_mut().unwrap(); x.deadline = 0; x.due = true; x.queued = true; q.push_back(i); o.push(b' '); put(o, i); } o.push(b'\n') }
        Call::Turn(s, e, stop) => match q.pop_front() { None => line(o, "refused idle"), Some(i) => {
            let x = a[i as usize].as_mut().unwrap(); o.extend_from_slice(b"turn "); put(o, i);
            let due = x.due; x.due = false; if let Some((f, m)) = x.mail.pop_front() { inm -= 1; o.extend_from_slice(b"; from "); put(o, f); o.push(b' '); put(o, m) } else if due { o.extend_from_slice(b"; timeout") }
            for &(t, m) in &sends[s as usize..e as usize] { o.extend_from_slice(b"; "); send!(i, t, m, false) }
            if stop { let x = a[i as usize].take().unwrap(); inm -= x.mail.len() as u64; live -= 1; line(o, "; stopped") } else {
              let x = a[i as usize].as_mut().unwrap();
              if x.mail.is_empty() { x.queued = false; if x.timeout != 0 { x.deadline = now + x.timeout; d.insert((x.deadline, i)); } line(o, "; idle") } else { q.push_back(i); line(o, "; again") } } } }
        _ => panic!() } }
}
fn main() {
    let _: Option<BTreeMap<u8, u8>> = None;
    let w: Vec<String> = std::env::args().collect();
    let mut all = Vec::new(); std::io::stdin().read_to_end(&mut all).unwrap();
    let mut sends = Vec::new(); let calls = parse(&all, &mut sends);
    let (x, y) = (w[2].parse().unwrap(), w[3].parse().unwrap());
    let mut o = Vec::new();
    match w[1].as_str() { "sessions" => sessions(&calls, &mut o, x, y), "limiter" => limiter(&calls, &mut o, x, y), "actors" => actors(&calls, &sends, &mut o, x, y), _ => panic!() }
    std::io::stdout().write_all(&o).unwrap();
}
