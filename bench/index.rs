//! A map of networks, by prefix and first address, with the standard library of Rust: the first line of each network. Prints
//! what index.c prints, without the bytes.
//!
//!     index_rs SHAPE

use std::collections::HashMap;
use std::env;
use std::time::Instant;

const LINES: u32 = 200_000;
const QUESTIONS: u32 = 500_000;

/// Whom a line is for.
#[derive(Clone, Copy, PartialEq, Eq, Hash)]
enum Key {
    Host(u32),
    Net(u8, u32),
    World,
}

fn next(seed: u64) -> u64 {
    let seed = seed ^ seed << 13;
    let seed = seed ^ seed >> 7;
    seed ^ seed << 17
}

fn network_of(address: u32, prefix: u8) -> Key {
    Key::Net(prefix, if prefix == 0 { 0 } else { address & u32::MAX << (32 - prefix) })
}

fn is_in_order(shape: &str) -> bool {
    shape != "random" && shape != "mixed"
}

fn lines(shape: &str) -> Vec<Key> {
    let mut seed = 88172645463325252u64;
    let mut lines = Vec::new();
    for k in 1..=LINES {
        seed = next(seed);
        let address = if is_in_order(shape) { 2 * k } else { (seed >> 32) as u32 };
        let prefix = if shape == "mixed" { 8 + (seed % 25) as u8 } else { 32 };
        lines.push(network_of(address, prefix));
    }
    lines
}

fn questions(shape: &str) -> Vec<u32> {
    let mut seed = 88172645463325252u64;
    let mut questions = Vec::new();
    for k in 0..QUESTIONS {
        seed = next(seed);
        questions.push(if is_in_order(shape) { k } else { (seed >> 32) as u32 });
    }
    questions
}

fn fill(lines: &[Key]) -> HashMap<Key, u32> {
    let mut table = HashMap::new();
    for (place, key) in lines.iter().enumerate() {
        table.entry(*key).or_insert(place as u32 + 1);
    }
    table
}

fn selected(table: &HashMap<Key, u32>, address: u32) -> Option<u32> {
    if let Some(line) = table.get(&Key::Host(address)) {
        return Some(*line);
    }
    for prefix in (0..=32).rev() {
        if let Some(line) = table.get(&network_of(address, prefix)) {
            return Some(*line);
        }
    }
    table.get(&Key::World).copied()
}

fn main() {
    let shape = env::args().nth(1).expect("a shape");
    let (lines, questions) = (lines(&shape), questions(&shape));
    let start = Instant::now();
    let table = fill(&lines);
    let filled = start.elapsed().as_micros();
    let start = Instant::now();
    let answered = questions.iter().filter(|address| selected(&table, **address).is_some()).count();
    let asked = start.elapsed().as_micros();
    println!("{filled} {asked} {answered}");
}
