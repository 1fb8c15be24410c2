// The plain program that the proved one is compared with. For fields it splits a text at line feeds and
// tabs or commas and keeps the same fields; for typed rows it reads a number and keeps a text by the
// kinds of the columns, as a list of values or as a pair. It knows no escapes, quotes or want of memory, and takes a bad number as the end.
use std::io::Read;
use std::time::Instant;

#[derive(Clone, Copy)]
enum Kind {
    Number,
    MaybeNumber,
    Text,
    Day,
    Decimal,
    Address,
    Id,
}

enum Value {
    Null,
    Number(u64),
    Text(Vec<u8>),
    Day(u16),
    Decimal(i128),
    Address(u32),
    Id(u128),
}

const PAIR: [Kind; 2] = [Kind::Number, Kind::Text];

const WIDE: [Kind; 8] = [
    Kind::Number,
    Kind::Day,
    Kind::Decimal,
    Kind::Address,
    Kind::Id,
    Kind::MaybeNumber,
    Kind::Text,
    Kind::Text,
];

struct Figures {
    rows: usize,
    fields: usize,
    bytes: usize,
}

fn split(separator: u8, text: &[u8]) -> Vec<Vec<Vec<u8>>> {
    let mut table = Vec::new();
    let mut left = text;
    while let Some(end) = left.iter().position(|b| *b == b'\n') {
        table.push(
            left[..end]
                .split(|b| *b == separator)
                .map(|field| field.to_vec())
                .collect(),
        );
        left = &left[end + 1..];
    }
    table
}

fn value(kind: Kind, field: &[u8]) -> Option<Value> {
    if let Kind::Text = kind {
        return Some(Value::Text(field.to_vec()));
    }
    let text = std::str::from_utf8(field).ok()?;
    match kind {
        Kind::MaybeNumber if text == "\\N" => Some(Value::Null),
        Kind::Number | Kind::MaybeNumber => text.parse().ok().map(Value::Number),
        Kind::Day => day(text).map(Value::Day),
        Kind::Decimal => decimal(text).map(Value::Decimal),
        Kind::Address => text.parse::<std::net::Ipv4Addr>().ok().map(|v4| Value::Address(u32::from(v4))),
        Kind::Id | Kind::Text => id(field).map(Value::Id),
    }
}

/// The number of a day from 1970-01-01.
fn day(text: &str) -> Option<u16> {
    let mut parts = text.split('-');
    let year: i32 = parts.next()?.parse().ok()?;
    let month: i32 = parts.next()?.parse().ok()?;
    let day: i32 = parts.next()?.parse().ok()?;
    if parts.next().is_some() || !(1..=12).contains(&month) || !(1..=31).contains(&day) {
        return None;
    }
    let year = if month <= 2 { year - 1 } else { year };
    let of_era = year % 400;
    let of_year = (153 * ((month + 9) % 12) + 2) / 5 + day - 1;
    let days = year / 400 * 146097 + of_era * 365 + of_era / 4 - of_era / 100 + of_year - 719468;
    u16::try_from(days).ok()
}

/// A number with up to four places, scaled by 10,000.
fn decimal(text: &str) -> Option<i128> {
    let (whole, places) = text.split_once('.').unwrap_or((text, ""));
    let mut scaled: i128 = whole.parse().ok()?;
    for place in 0..4 {
        let digit = match places.as_bytes().get(place) {
            Some(b) if b.is_ascii_digit() => i128::from(b - b'0'),
            Some(_) => return None,
            None => 0,
        };
        scaled = scaled * 10 + if text.starts_with('-') { -digit } else { digit };
    }
    Some(scaled)
}

/// 32 hexadecimal digits with four hyphens.
fn id(field: &[u8]) -> Option<u128> {
    if field.len() != 36 {
        return None;
    }
    let mut number = 0;
    for (place, b) in field.iter().enumerate() {
        if matches!(place, 8 | 13 | 18 | 23) {
            if *b != b'-' {
                return None;
            }
        } else {
            number = number * 16 + u128::from((*b as char).to_digit(16)?);
        }
    }
    Some(number)
}

fn row(kinds: &[Kind], separator: u8, line: &[u8]) -> Option<Vec<Value>> {
    let mut row = Vec::with_capacity(kinds.len());
    let mut fields = line.split(|b| *b == separator);
    for kind in kinds {
        row.push(value(*kind, fields.next()?)?);
    }
    if fields.next().is_none() { Some(row) } else { None }
}

fn decode(kinds: &[Kind], separator: u8, text: &[u8]) -> Vec<Vec<Value>> {
    let mut table = Vec::new();
    let mut left = text;
    while let Some(end) = left.iter().position(|b| *b == b'\n') {
        let Some(row) = row(kinds, separator, &left[..end]) else { break };
        table.push(row);
        left = &left[end + 1..];
    }
    table
}

/// How many bytes of text a value has.
fn bytes(value: &Value) -> usize {
    match value {
        Value::Text(text) => text.len(),
        Value::Null => 0,
        Value::Number(number) => {
            std::hint::black_box(*number);
            0
        }
        Value::Day(day) => {
            std::hint::black_box(*day);
            0
        }
        Value::Decimal(scaled) => {
            std::hint::black_box(*scaled);
            0
        }
        Value::Address(address) => {
            std::hint::black_box(*address);
            0
        }
        Value::Id(id) => {
            std::hint::black_box(*id);
            0
        }
    }
}

/// The same rows as pairs: no list for each of them.
fn pairs(text: &[u8]) -> Vec<(u64, String)> {
    let mut table = Vec::new();
    let mut left = text;
    while let Some(end) = left.iter().position(|b| *b == b'\n') {
        let line = &left[..end];
        let Some(tab) = line.iter().position(|b| *b == b'\t') else { break };
        let Some(number) = std::str::from_utf8(&line[..tab]).ok().and_then(|n| n.parse().ok()) else { break };
        let Ok(name) = std::str::from_utf8(&line[tab + 1..]) else { break };
        table.push((number, name.to_string()));
        left = &left[end + 1..];
    }
    table
}

fn read(work: &str, text: &[u8]) -> Figures {
    if work == "pairs" {
        let table = pairs(text);
        return Figures {
            rows: table.len(),
            fields: 2 * table.len(),
            bytes: table.iter().map(|(number, name)| {
                std::hint::black_box(*number);
                name.len()
            }).sum(),
        };
    }
    let decoded = match work {
        "decode" => Some(decode(&PAIR, b'\t', text)),
        "decode_csv" => Some(decode(&PAIR, b',', text)),
        "wide" => Some(decode(&WIDE, b'\t', text)),
        _ => None,
    };
    if let Some(table) = decoded {
        return Figures {
            rows: table.len(),
            fields: table.iter().map(|row| row.len()).sum(),
            bytes: table.iter().flatten().map(bytes).sum(),
        };
    }
    let table = split(if work == "csv" { b',' } else { b'\t' }, text);
    Figures {
        rows: table.len(),
        fields: table.iter().map(|row| row.len()).sum(),
        bytes: table.iter().flatten().map(|field| field.len()).sum(),
    }
}

fn main() {
    let mut words = std::env::args().skip(1);
    let work = words.next().unwrap_or_default();
    let rounds: u32 = words.next().and_then(|number| number.parse().ok()).unwrap_or(0);
    let mut text = Vec::new();
    std::io::stdin().read_to_end(&mut text).unwrap();
    let found = read(&work, &text);
    println!("rows {} fields {} bytes {}", found.rows, found.fields, found.bytes);
    let mut best = u128::MAX;
    for _ in 0..rounds {
        let start = Instant::now();
        let again = read(&work, &text);
        best = best.min(start.elapsed().as_micros());
        std::hint::black_box(again.bytes);
    }
    if rounds > 0 {
        println!("{best}");
    }
}
