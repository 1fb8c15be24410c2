// The plain program that a session of `dictd once` is compared with: it reads rows of a number and a text from a
// file into std's HashMap, reads the same requests from its input, and writes the same replies. A reply is written
// when it is made, as a session does for a client that waits for it, or, with the word `buffered`, when 64 KiB of
// replies have come together. It knows no escapes, no faults, and no other dictionary than `d`.
use std::collections::HashMap;
use std::env;
use std::fs;
use std::io::{self, BufRead, Write};
use std::os::fd::{AsFd, OwnedFd};

/// The rows of a file, by their keys; of several rows with one key the first stays.
fn rows_of(name: &str) -> HashMap<u64, Vec<u8>> {
    let text = fs::read(name).unwrap();
    let mut rows = HashMap::new();
    for line in text.split(|byte| *byte == b'\n') {
        if let Some(tab) = line.iter().position(|byte| *byte == b'\t') {
            let key = number_of(&line[..tab]);
            rows.entry(key).or_insert_with(|| line[tab + 1..].to_vec());
        }
    }
    rows
}

fn number_of(digits: &[u8]) -> u64 {
    std::str::from_utf8(digits).unwrap().parse().unwrap()
}

fn push_value(rows: &HashMap<u64, Vec<u8>>, key: &[u8], reply: &mut Vec<u8>) {
    if let Some(value) = rows.get(&number_of(key)) {
        reply.extend_from_slice(value);
    }
    reply.push(b'\n');
}

/// The next line without its line feed; false at the end of the input.
fn read_line(input: &mut impl BufRead, line: &mut Vec<u8>) -> bool {
    line.clear();
    if input.read_until(b'\n', line).unwrap() == 0 {
        return false;
    }
    if line.last() == Some(&b'\n') {
        line.pop();
    }
    true
}

fn answer(rows: &HashMap<u64, Vec<u8>>, input: &mut impl BufRead, line: &mut Vec<u8>, reply: &mut Vec<u8>) {
    if let Some(key) = line.strip_prefix(b"dictGet\td\tx\t") {
        reply.extend_from_slice(b"OK\tv1\t");
        push_value(rows, key, reply);
        return;
    }
    let head = line.strip_prefix(b"many\t").unwrap();
    let head = head.strip_suffix(b"\tdictGet\td\tx").unwrap();
    let count = number_of(head);
    reply.extend_from_slice(format!("OK\tv1\t{count}\n").as_bytes());
    for _ in 0..count {
        assert!(read_line(input, line));
        push_value(rows, line, reply);
    }
}

/// Standard output without the buffer that std puts before it.
fn raw_output() -> fs::File {
    let owned: OwnedFd = io::stdout().as_fd().try_clone_to_owned().unwrap();
    fs::File::from(owned)
}

fn main() {
    let words: Vec<String> = env::args().collect();
    let rows = rows_of(&words[1]);
    let most = if words.get(2).map(String::as_str) == Some("buffered") { 65536 } else { 1 };
    let mut input = io::stdin().lock();
    let mut out = raw_output();
    let (mut line, mut reply) = (Vec::new(), Vec::new());
    while read_line(&mut input, &mut line) {
        answer(&rows, &mut input, &mut line, &mut reply);
        if reply.len() >= most {
            out.write_all(&reply).unwrap();
            reply.clear();
        }
    }
    out.write_all(&reply).unwrap();
}
