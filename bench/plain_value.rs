//! `life value` over a journal of issues alone, in plain Rust: the same columns by end age and the same premiums kept, the
//! same workers, the same rows printed. It tries no rule of the journal and proves nothing. `figures.py workers` compares the
//! program with it, to show what the machine gives to several threads; tests take the sums of generated books from it.
//! usage: plain_value TABLE.xml BASIS_POINTS WORKERS <journal.life >rows   (2020-12-31; seconds on standard error)
use std::collections::HashMap;
use std::fmt::Write as _;
use std::io::{Read, Write};
use std::time::Instant;

const UNIT: u128 = 10_000_000_000_000_000;
const HEAD: usize = 18;
const RECORD: usize = 65;
/// 2020-12-31, in days since 1970-01-01.
const ON: i32 = 18_627;

#[derive(Clone, Copy, Default)]
struct Pair {
    lo: u64,
    hi: u64,
}

#[derive(Clone, Copy)]
struct Policy {
    id: u32,
    plan: u8,
    age: u8,
    years: u8,
    issued: i32,
    amount: u64,
}

#[derive(Clone, Copy)]
struct Row {
    id: u32,
    t: u8,
    lo: u64,
    hi: u64,
}

fn down(number: u128, divisor: u128) -> u64 {
    (number / divisor) as u64
}

fn up(number: u128, divisor: u128) -> u64 {
    ((number + divisor - 1) / divisor) as u64
}

fn over(benefits: Pair, premiums: Pair) -> Pair {
    Pair {
        lo: down(benefits.lo as u128 * UNIT, premiums.hi as u128),
        hi: up(benefits.hi as u128 * UNIT, premiums.lo as u128),
    }
}

/// One worker: the columns by what is paid and by end age, and the premiums by plan, age and years.
struct Worker<'a> {
    rates: &'a [u32],
    bp: u128,
    columns: HashMap<(u8, usize), Box<[Pair; 132]>>,
    premiums: HashMap<(u8, u8, u8), Pair>,
}

impl Worker<'_> {
    /// 0 an insurance, 1 an endowment, 2 an annuity; at an attained age, up to an end age.
    fn value(&mut self, stream: u8, end: usize, age: usize) -> Pair {
        let (rates, bp) = (self.rates, self.bp);
        self.columns.entry((stream, end)).or_insert_with(|| Box::new(column(rates, bp, stream, end)))[age]
    }

    fn values(&mut self, matures: bool, age: usize, n: usize, h: usize, t: usize) -> (Pair, Pair) {
        let benefits = self.value(matures as u8, age + n, age + t);
        let premiums = if t < h { self.value(2, age + h, age + t) } else { Pair::default() };
        (benefits, premiums)
    }

    fn premium(&mut self, policy: &Policy, matures: bool, n: usize, h: usize) -> Pair {
        let key = (policy.plan, policy.age, policy.years);
        if let Some(found) = self.premiums.get(&key) {
            return *found;
        }
        let (age, last) = (policy.age as usize, self.rates.len());
        let (ben, ann) = self.values(matures, age, n, h, 0);
        let (later_ben, later_ann) = self.values(matures, age, n, h, 1);
        let whole = last - age - 1;
        let (cap_ben, cap_ann) = self.values(true, age + 1, whole, whole.min(19), 0);
        let first = 10_000 * self.rates[age] as u128 * UNIT;
        let year = 1_000_000_000 * (10_000 + self.bp);
        let (renewal, cap) = (over(later_ben, later_ann), over(cap_ben, cap_ann));
        let excess_lo = renewal.lo.min(cap.lo).saturating_sub(up(first, year));
        let excess_hi = renewal.hi.min(cap.hi).saturating_sub(down(first, year));
        let found = over(Pair { lo: ben.lo + excess_lo, hi: ben.hi + excess_hi }, ann);
        self.premiums.insert(key, found);
        found
    }

    fn row(&mut self, policy: &Policy) -> Row {
        let (age, years) = (policy.age as usize, policy.years as usize);
        let to_the_end = self.rates.len() - age;
        let n = if policy.plan == 1 || policy.plan == 3 { years } else { to_the_end };
        let h = if policy.plan == 4 { years.min(n) } else { n };
        let matures = policy.plan != 1;
        let t = completed(policy.issued).min(n);
        let beta = self.premium(policy, matures, n, h);
        let (ben, ann) = self.values(matures, age, n, h, t);
        let lo = ben.lo.saturating_sub(up(beta.hi as u128 * ann.hi as u128, UNIT));
        let hi = ben.hi.saturating_sub(down(beta.lo as u128 * ann.lo as u128, UNIT));
        let amount = policy.amount as u128;
        Row { id: policy.id, t: t as u8, lo: down(amount * lo as u128, UNIT), hi: up(amount * hi as u128, UNIT) }
    }
}

fn column(rates: &[u32], bp: u128, stream: u8, end: usize) -> [Pair; 132] {
    let year = 1_000_000_000 * (10_000 + bp);
    let mut found = [Pair::default(); 132];
    if stream == 1 {
        found[end] = Pair { lo: UNIT as u64, hi: UNIT as u64 };
    }
    for age in (0..end).rev() {
        let rate = rates[age] as u128;
        let alive = 1_000_000_000 - rate;
        let later = found[age + 1];
        found[age] = if stream == 2 {
            Pair {
                lo: UNIT as u64 + down(10_000 * alive * later.lo as u128, year),
                hi: UNIT as u64 + up(10_000 * alive * later.hi as u128, year),
            }
        } else {
            Pair {
                lo: down(10_000 * (rate * UNIT + alive * later.lo as u128), year),
                hi: up(10_000 * (rate * UNIT + alive * later.hi as u128), year),
            }
        };
    }
    found
}

/// The years from a day of issue from 2000-01-01 on to the last day of 2020, whose anniversaries of that year are never
/// later.
fn completed(day: i32) -> usize {
    let (mut year, mut left) = (2000, day - 10_957);
    loop {
        let days = if year % 4 == 0 { 366 } else { 365 };
        if left < days || day > ON {
            return 2020 - year as usize;
        }
        left -= days;
        year += 1;
    }
}

/// The rates of the first table of a file, in units of 10^-9, from age 0 on.
fn rates_of(text: &str) -> Vec<u32> {
    let mut rates = Vec::new();
    for part in text.split("<Y t=\"").skip(1) {
        let figure = part.split(['>', '<']).nth(1).unwrap().trim();
        rates.push((figure.parse::<f64>().unwrap() * 1e9).round() as u32);
    }
    rates
}

fn number(bytes: &[u8]) -> u64 {
    bytes.iter().fold(0, |sum, byte| sum << 8 | *byte as u64)
}

fn policy_of(record: &[u8]) -> Policy {
    let body = &record[1..];
    Policy {
        id: number(&body[4..8]) as u32,
        plan: body[1],
        age: body[2],
        years: body[3],
        issued: number(&body[8..12]) as u32 as i32,
        amount: number(&body[12..20]),
    }
}

fn main() {
    let words: Vec<String> = std::env::args().collect();
    let rates = rates_of(&std::fs::read_to_string(&words[1]).unwrap());
    let (bp, workers): (u128, usize) = (words[2].parse().unwrap(), words[3].parse().unwrap());
    let start = Instant::now();
    let mut bytes = Vec::new();
    std::io::stdin().read_to_end(&mut bytes).unwrap();
    let policies: Vec<Policy> = bytes[HEAD - 1..].chunks_exact(RECORD).map(policy_of).collect();
    let read = start.elapsed();
    let start = Instant::now();
    let mut rows = vec![Row { id: 0, t: 0, lo: 0, hi: 0 }; policies.len()];
    let share = policies.len().div_ceil(workers).max(1);
    std::thread::scope(|scope| {
        for (policies, rows) in policies.chunks(share).zip(rows.chunks_mut(share)) {
            let rates = &rates;
            scope.spawn(move || {
                let mut worker = Worker { rates, bp, columns: HashMap::new(), premiums: HashMap::new() };
                for (policy, row) in policies.iter().zip(rows) {
                    *row = worker.row(policy);
                }
            });
        }
    });
    let valued = start.elapsed();
    let start = Instant::now();
    let mut text = String::new();
    let (mut lower, mut upper) = (0, 0);
    for row in &rows {
        let cents = |amount: u64| (amount / 100, amount % 100);
        let ((lo, lo_cents), (hi, hi_cents)) = (cents(row.lo), cents(row.hi));
        writeln!(text, "row,{},inforce,{},{lo}.{lo_cents:02},{hi}.{hi_cents:02}", row.id, row.t).unwrap();
        lower += row.lo;
        upper += row.hi;
    }
    std::io::stdout().write_all(text.as_bytes()).unwrap();
    eprintln!(
        "{:.3} s read, {:.3} valued by {workers}, {:.3} printed; {} policies, {lower} to {upper} cents",
        read.as_secs_f64(), valued.as_secs_f64(), start.elapsed().as_secs_f64(), rows.len()
    );
}
