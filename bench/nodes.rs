//! The triples that `bench_calls diagrams nodes COUNT` puts into its table, in a plain `HashMap` of Rust's standard library,
//! with the same line of output. Use, as its program is named `hashmap`: hashmap nodes COUNT.

use std::collections::HashMap;

/// The generator of crates/bench_calls/src/random.rt.
struct Random {
    state: u64,
}

impl Random {
    fn below(&mut self, bound: u32) -> u32 {
        self.state = self
            .state
            .wrapping_mul(6364136223846793005)
            .wrapping_add(1442695040888963407);
        ((self.state >> 33) % bound as u64) as u32
    }
}

/// The number of a node, by its variable and its children.
type Table = HashMap<(u32, u32, u32), u32>;

fn make(table: &mut Table, var: u32, lo: u32, hi: u32) -> u32 {
    if lo == hi {
        return lo;
    }
    let next = table.len() as u32 + 2;
    *table.entry((var, lo, hi)).or_insert(next)
}

fn add_chain(table: &mut Table, random: &mut Random, count: usize) {
    let mut f = random.below(2);
    for var in (0..256).rev() {
        if table.len() >= count {
            break;
        }
        let constant = random.below(2);
        f = if random.below(2) == 0 {
            make(table, var, f, constant)
        } else {
            make(table, var, constant, f)
        };
    }
}

fn main() {
    let words: Vec<String> = std::env::args().skip(1).collect();
    let count = match words.as_slice() {
        [problem, count] if problem == "nodes" => count.parse().ok(),
        _ => None,
    };
    let Some(count) = count else {
        eprintln!("use: hashmap nodes COUNT");
        std::process::exit(2);
    };
    let mut table = Table::new();
    let mut random = Random { state: 1 };
    for _ in 0..count {
        if table.len() >= count {
            break;
        }
        add_chain(&mut table, &mut random, count);
    }
    println!("nodes {count}: {0} nodes, {0} in the table", table.len());
}
