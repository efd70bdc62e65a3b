//! Opens a journal as a plain program would: reads it by pieces of 64 KiB for its gates and then for its bodies, spells each
//! issue out into a list and keeps the place of its policy in a map. No rule is tried and no other kind of record is known.
//! This is what the file costs, to time beside `life run` of an empty script. Nothing here is proved.
//! usage: plain_opening FILE   (prints how many records it has)
use std::collections::HashMap;
use std::convert::TryInto;
use std::fs::File;
use std::io::Result;
use std::os::unix::fs::FileExt;

const RECORDS: usize = 1008;

struct Issue {
    id: u32,
    day: i32,
    plan: u8,
    age: u8,
    years: u8,
    amount: u64,
    premium: u64,
}

fn number<const N: usize>(body: &[u8], at: usize) -> [u8; N] {
    body[at..at + N].try_into().unwrap()
}

fn issue_in(body: &[u8]) -> Issue {
    Issue {
        id: u32::from_be_bytes(number(body, 4)),
        day: i32::from_be_bytes(number(body, 8)),
        plan: body[1],
        age: body[2],
        years: body[3],
        amount: u64::from_be_bytes(number(body, 12)),
        premium: u64::from_be_bytes(number(body, 20)),
    }
}

fn count_records(file: &File, size: u64, piece: &mut [u8]) -> Result<usize> {
    let mut count = 0;
    loop {
        let at = 17 + 65 * count as u64;
        let many = piece.len().min((size - at) as usize);
        file.read_exact_at(&mut piece[..many], at)?;
        for gate in (0..many).step_by(65) {
            if piece[gate] != 1 {
                return Ok(count + gate / 65);
            }
        }
        count += many / 65;
    }
}

fn main() -> Result<()> {
    let name = std::env::args().nth(1).expect("the file's name");
    let file = File::open(name)?;
    let mut piece = vec![0; 65 * RECORDS];
    let count = count_records(&file, file.metadata()?.len(), &mut piece)?;
    let mut issues: Vec<Issue> = Vec::with_capacity(count);
    let mut places: HashMap<u32, usize> = HashMap::with_capacity(count);
    for first in (0..count).step_by(RECORDS) {
        let many = RECORDS.min(count - first);
        file.read_exact_at(&mut piece[..65 * many], 17 + 65 * first as u64)?;
        for body in piece[..65 * many].chunks_exact(65) {
            let issue = issue_in(&body[1..]);
            places.insert(issue.id, issues.len());
            issues.push(issue);
        }
    }
    let sum = issues.iter().fold(0u64, |sum, it| {
        sum.wrapping_add(it.amount + it.premium + it.day as u64 + u64::from(it.plan) + u64::from(it.age) + u64::from(it.years))
    });
    println!("{} {} {}", count, places.len(), sum);
    Ok(())
}
