// A plain loop that splits a script of clerks' lines by the rules of RFC 4180 and checks each field: what reading costs
// where nothing is proved. It prints how many rows fit. Days are checked as civil dates, numbers for their digits and
// ranges; the commands are kept in a vector, as the program keeps them.
use std::io::Read;

struct Command {
    _kind: u8,
    _id: u32,
    _numbers: [u64; 5],
}

fn number(text: &[u8], most: u64) -> Option<u64> {
    if text.is_empty() || (text[0] == b'0' && text.len() > 1) {
        return None;
    }
    let mut value: u64 = 0;
    for &digit in text {
        if !digit.is_ascii_digit() {
            return None;
        }
        value = value.checked_mul(10)?.checked_add(u64::from(digit - b'0'))?;
    }
    (value <= most).then_some(value)
}

fn cents(text: &[u8], most: u64) -> Option<u64> {
    let point = text.len().checked_sub(3)?;
    if text[point] != b'.' {
        return None;
    }
    let whole = number(&text[..point], most)?;
    let (a, b) = (text[point + 1], text[point + 2]);
    if !a.is_ascii_digit() || !b.is_ascii_digit() {
        return None;
    }
    let value = whole * 100 + u64::from(a - b'0') * 10 + u64::from(b - b'0');
    (1 <= value && value <= most).then_some(value)
}

fn day(text: &[u8]) -> Option<u64> {
    if text.len() != 10 || text[4] != b'-' || text[7] != b'-' {
        return None;
    }
    let digits = |part: &[u8]| part.iter().try_fold(0, |n, d| d.is_ascii_digit().then(|| n * 10 + u64::from(d - b'0')));
    let (year, month, day) = (digits(&text[..4])?, digits(&text[5..7])?, digits(&text[8..])?);
    let leap = year % 4 == 0 && (year % 100 != 0 || year % 400 == 0);
    let days = match month {
        2 => 28 + u64::from(leap),
        4 | 6 | 9 | 11 => 30,
        1..=12 => 31,
        _ => return None,
    };
    (1900..=2199).contains(&year).then_some(())?;
    (1 <= day && day <= days).then_some(year * 372 + month * 31 + day)
}

fn line(fields: &[Vec<u8>]) -> Option<Command> {
    if fields.len() < 4 || fields[0] != b"1" {
        return None;
    }
    let id = number(&fields[2], 4_294_967_295).filter(|&id| id > 0)? as u32;
    let on = day(&fields[3])?;
    let most = 10_000_000_000;
    let (kind, numbers) = match (fields[1].as_slice(), fields.len()) {
        (b"issue", 9) => {
            let plan = [b"term".as_slice(), b"whole", b"endowment", b"limited"].iter().position(|p| *p == fields[4])?;
            let (age, years) = (number(&fields[5], 129)?, number(&fields[6], 131)?);
            let fits = if plan == 1 { years == 0 } else { years >= 2 && age + years <= 131 };
            fits.then_some(())?;
            (1, [on, plan as u64, age * 256 + years, cents(&fields[7], most)?, cents(&fields[8], most)?])
        }
        (b"premium", 5) => (2, [on, cents(&fields[4], most)?, 0, 0, 0]),
        (b"alter", 6) => (3, [on, cents(&fields[4], most)?, cents(&fields[5], most)?, 0, 0]),
        (b"lapse", 4) => (4, [on, 0, 0, 0, 0]),
        (b"reinstate", 5) => (5, [on, cents(&fields[4], 4 * most)?, 0, 0, 0]),
        (b"claim", 4) => (6, [on, 0, 0, 0, 0]),
        (b"settle", 5) => (7, [on, cents(&fields[4], most)?, 0, 0, 0]),
        (b"mature", 4) => (8, [on, 0, 0, 0, 0]),
        _ => return None,
    };
    Some(Command { _kind: kind, _id: id, _numbers: numbers })
}

fn main() {
    let mut bytes = Vec::new();
    std::io::stdin().read_to_end(&mut bytes).unwrap();
    let mut kept: Vec<Command> = Vec::new();
    let mut fields: Vec<Vec<u8>> = vec![Vec::new(); 16];
    let (mut count, mut quoted, mut was_quoted, mut bad) = (0, false, false, 0u64);
    let mut places = bytes.iter().copied().chain([b'\n']).peekable();
    while let Some(byte) = places.next() {
        if quoted {
            if byte != b'"' {
                fields[count].push(byte);
            } else if places.peek() == Some(&b'"') {
                fields[count].push(b'"');
                places.next();
            } else {
                quoted = false;
            }
            continue;
        }
        match byte {
            b'"' if fields[count].is_empty() => {
                quoted = true;
                was_quoted = true;
            }
            b',' if count < 15 => count += 1,
            b'\n' | b'\r' => {
                if count > 0 || was_quoted || !fields[0].is_empty() {
                    match line(&fields[..=count]) {
                        Some(command) => kept.push(command),
                        None => bad += 1,
                    }
                }
                for field in &mut fields[..=count] {
                    field.clear();
                }
                count = 0;
                was_quoted = false;
            }
            _ => fields[count].push(byte),
        }
    }
    println!("{},{}", kept.len(), bad);
}
