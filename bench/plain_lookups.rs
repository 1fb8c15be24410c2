// The plain program that the proved one is compared with: an array for small keys, and std's HashMap for
// keys of 64 bits and for the bytes of keys of two values; a trie of one bit a level for prefixes; std's HashMap
// from keys to parents for chains, and from keys to lists of ranges, which are scanned. The words and the keys are those of crates/bench_lookups.
use std::collections::HashMap;
use std::hash::Hash;
use std::time::Instant;

fn scattered(number: u64) -> u64 {
    let a = number.wrapping_add(1).wrapping_mul(0x9e37_79b9_7f4a_7c15);
    let b = (a ^ (a >> 30)).wrapping_mul(0xbf58_476d_1ce4_e5b9);
    let c = (b ^ (b >> 27)).wrapping_mul(0x94d0_49bb_1331_11eb);
    c ^ (c >> 31)
}

fn key(layout: &str, count: u64, number: u64) -> u64 {
    match layout {
        "hashed" | "complex" => scattered(number),
        _ => number.wrapping_mul(7919) % count * 2 + (number / count).min(1),
    }
}

fn asked(layout: &str, share: &str, count: u64, finds: u64) -> Vec<u64> {
    (0..finds)
        .map(|find| {
            let drawn = scattered(find + 4_294_967_296);
            let row = drawn % count;
            let number = match share {
                "all" => row,
                "none" => row + count,
                _ => row + (drawn >> 63) * count,
            };
            key(layout, count, number)
        })
        .collect()
}

/// The bytes of a key of ten letters and a small number.
fn key_bytes(key: u64) -> Vec<u8> {
    let mut bytes = vec![0; 11];
    let mut rest = key;
    for byte in &mut bytes[..10] {
        *byte = b'a' + (rest % 26) as u8;
        rest /= 26;
    }
    bytes[10] = (rest % 256) as u8;
    bytes
}

fn array_of(keys: &[u64]) -> Vec<u32> {
    let room = keys.iter().max().map_or(0, |key| key + 1);
    let mut cells = vec![0; room as usize];
    for (row, key) in keys.iter().enumerate() {
        if cells[*key as usize] == 0 {
            cells[*key as usize] = row as u32 + 1;
        }
    }
    cells
}

fn map_of<K: Clone + Eq + Hash>(keys: &[K]) -> HashMap<K, u32> {
    let mut map = HashMap::with_capacity(keys.len());
    for (row, key) in keys.iter().enumerate() {
        map.entry(key.clone()).or_insert(row as u32);
    }
    map
}

fn found<K>(asked: &[K], find: impl Fn(&K) -> Option<u32>) -> (u64, u64) {
    let (mut count, mut sum) = (0, 0);
    for key in asked {
        if let Some(place) = find(key) {
            count += 1;
            sum += u64::from(place);
        }
    }
    (count, sum)
}

/// A trie of one bit a level: the children, and one more than the first row that ends at the node.
#[derive(Clone, Copy, Default)]
struct Node {
    children: [u32; 2],
    row: u32,
}

/// The bits of an IPv6 prefix: 2000::/3 and scattered ones.
fn wide(number: u64) -> u128 {
    let high = (scattered(number) >> 3) | (1 << 61);
    (u128::from(high) << 64) | u128::from(scattered(number ^ (1 << 40)))
}

/// The first ones of 128 bits of a prefix, and its length.
fn prefix(search: &str, number: u64) -> (u128, u32) {
    let drawn = (scattered(number ^ (1 << 41)) % 17) as u32;
    match search {
        "v6" => (wide(number) >> 64 << 64, 32 + drawn),
        _ => (u128::from(scattered(number) >> 32) << 96, 8 + drawn),
    }
}

fn trie_of(search: &str, count: u64) -> Vec<Node> {
    let mut nodes = vec![Node::default()];
    for row in 0..count {
        let (bits, len) = prefix(search, row);
        let mut at = 0;
        for level in 0..len {
            let bit = (bits >> (127 - level)) as usize & 1;
            if nodes[at].children[bit] == 0 {
                nodes[at].children[bit] = nodes.len() as u32;
                nodes.push(Node::default());
            }
            at = nodes[at].children[bit] as usize;
        }
        if nodes[at].row == 0 {
            nodes[at].row = row as u32 + 1;
        }
    }
    nodes
}

fn longest(nodes: &[Node], bits: u128, width: u32) -> Option<u32> {
    let (mut at, mut best) = (0, 0);
    for level in 0..=width {
        if nodes[at].row != 0 {
            best = nodes[at].row;
        }
        if level == width {
            break;
        }
        at = nodes[at].children[(bits >> (127 - level)) as usize & 1] as usize;
        if at == 0 {
            break;
        }
    }
    best.checked_sub(1)
}

fn chain(parents: &HashMap<u64, Option<u64>>, key: u64) -> Vec<u64> {
    let mut chain = Vec::new();
    let mut next = Some(key);
    while let Some(key) = next {
        match parents.get(&key) {
            Some(parent) if !chain.contains(&key) => {
                chain.push(key);
                next = *parent;
            }
            _ => break,
        }
    }
    chain
}

/// A row's range, as it is scanned.
#[derive(Clone, Copy)]
struct Range {
    low: i128,
    high: i128,
    row: u32,
}

fn key_count(kind: &str, count: u64) -> u64 {
    if kind == "ranges" { (count / 10).max(1) } else { 1 }
}

fn ranges_of(kind: &str, count: u64) -> HashMap<u64, Vec<Range>> {
    let keys = key_count(kind, count);
    let mut map: HashMap<u64, Vec<Range>> = HashMap::new();
    for row in 0..count {
        let (start, width) = (scattered(row), scattered(row ^ (1 << 41)));
        let (low, width) = if kind == "ranges" {
            (row / keys * 100 + start % 50, width % 200)
        } else {
            (start % 1_000_000_000, width % 1_000_000_000)
        };
        let (low, high) = (i128::from(low), i128::from(low) + i128::from(width));
        map.entry(scattered(row % keys)).or_default().push(Range {
            low,
            high,
            row: row as u32,
        });
    }
    map
}

/// Of the ranges that hold the point the one with the greatest start, then the greatest end, then the first.
fn scan(ranges: &[Range], point: i128) -> Option<u32> {
    let mut best: Option<Range> = None;
    for range in ranges {
        if range.low <= point && point <= range.high {
            match best {
                Some(best) if (best.low, best.high) >= (range.low, range.high) => {}
                _ => best = Some(*range),
            }
        }
    }
    best.map(|range| range.row)
}

/// Times scans of a key's ranges.
fn scans(kind: &str, count: u64, finds: u64, rounds: u64) {
    let keys = key_count(kind, count);
    let most = if kind == "ranges" { 1_000 } else { 2_000_000_000 };
    let asked: Vec<(u64, i128)> = (0..finds)
        .map(|find| {
            let number = scattered(find + 4_294_967_296);
            (scattered(number % keys), i128::from(scattered(number) % most))
        })
        .collect();
    let (mut build, mut find) = (u128::MAX, u128::MAX);
    for round in 0..=rounds {
        let start = Instant::now();
        let map = ranges_of(kind, count);
        let middle = Instant::now();
        let (hits, sum) = found(&asked, |(key, point)| map.get(key).and_then(|ranges| scan(ranges, *point)));
        let end = Instant::now();
        build = build.min((middle - start).as_micros());
        find = find.min((end - middle).as_micros());
        if round == 0 {
            println!("found {hits} sum {sum}");
        }
    }
    println!("{build} {find}");
}

/// Times a search by address or of chains.
fn search(kind: &str, count: u64, finds: u64, rounds: u64) {
    let drawn: Vec<u64> = (0..finds).map(|find| scattered(find + 4_294_967_296)).collect();
    let addresses: Vec<u128> = drawn
        .iter()
        .map(|drawn| match kind {
            "v6" => wide(drawn % count) ^ u128::from(scattered(*drawn)),
            "v4" => u128::from(drawn >> 32) << 96,
            _ => u128::from(scattered(drawn % count / 10 * 10)),
        })
        .collect();
    let (mut build, mut find) = (u128::MAX, u128::MAX);
    for round in 0..=rounds {
        let start = Instant::now();
        let (mut hits, mut sum) = (0u64, 0u64);
        let middle;
        if kind == "chains" {
            let parents: HashMap<u64, Option<u64>> = (0..count)
                .map(|row| (scattered(row), (row % 10 != 9).then(|| scattered(row + 1))))
                .collect();
            middle = Instant::now();
            for key in &addresses {
                for member in chain(&parents, *key as u64) {
                    hits += 1;
                    sum = sum.wrapping_add(member);
                }
            }
        } else {
            let nodes = trie_of(kind, count);
            let width = if kind == "v6" { 128 } else { 32 };
            middle = Instant::now();
            for address in &addresses {
                if let Some(row) = longest(&nodes, *address, width) {
                    hits += 1;
                    sum += u64::from(row);
                }
            }
        }
        let end = Instant::now();
        build = build.min((middle - start).as_micros());
        find = find.min((end - middle).as_micros());
        if round == 0 {
            println!("found {hits} sum {sum}");
        }
    }
    println!("{build} {find}");
}

fn main() {
    let words: Vec<String> = std::env::args().collect();
    let (layout, share) = (words[1].as_str(), words[2].as_str());
    let numbers: Vec<u64> = words[3..6].iter().map(|word| word.parse().unwrap()).collect();
    if matches!(layout, "v4" | "v6" | "chains") {
        return search(layout, numbers[0], numbers[1], numbers[2]);
    }
    if matches!(layout, "ranges" | "overlaps") {
        return scans(layout, numbers[0], numbers[1], numbers[2]);
    }
    let keys: Vec<u64> = (0..numbers[0]).map(|row| key(layout, numbers[0], row)).collect();
    let asked = asked(layout, share, numbers[0], numbers[1]);
    let complex = layout == "complex";
    let lists: Vec<Vec<u8>> = keys.iter().filter(|_| complex).map(|key| key_bytes(*key)).collect();
    let asked_lists: Vec<Vec<u8>> = asked.iter().filter(|_| complex).map(|key| key_bytes(*key)).collect();
    let (mut build, mut find) = (u128::MAX, u128::MAX);
    for round in 0..=numbers[2] {
        let start = Instant::now();
        let (hits, sum, middle);
        if layout == "hashed" {
            let map = map_of(&keys);
            middle = Instant::now();
            (hits, sum) = found(&asked, |key| map.get(key).copied());
        } else if complex {
            let map = map_of(&lists);
            middle = Instant::now();
            (hits, sum) = found(&asked_lists, |key| map.get(key).copied());
        } else {
            let cells = array_of(&keys);
            middle = Instant::now();
            (hits, sum) = found(&asked, |key| match cells.get(*key as usize) {
                Some(cell) if *cell > 0 => Some(cell - 1),
                _ => None,
            });
        }
        let end = Instant::now();
        build = build.min((middle - start).as_micros());
        find = find.min((end - middle).as_micros());
        if round == 0 {
            println!("found {hits} sum {sum}");
        }
    }
    println!("{build} {find}");
}
