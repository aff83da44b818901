//! `twin KIND THREADS ITERS ARG [packed|sorted|16yields]`: the loops of `bench_running` over the same protocol in plain Rust, without proofs. It
//! prints times in ns, separated by spaces.

// What only the product answers with is written here and read by nobody.
#![allow(dead_code)]

mod benches;
mod callback;
mod image;
mod proto;
mod rsync;

use benches::bench;
use image::{Dense, Sorted};
use proto::{Packed, Policy, Split};

// How many times a run prints at most.
const MOST: usize = 65536;

fn main() {
    let words: Vec<String> = std::env::args().skip(1).collect();
    let number = |at: usize| {
        words.get(at).and_then(|word| word.parse::<u64>().ok()).unwrap_or_else(|| {
            eprintln!("twin KIND THREADS ITERS ARG [packed|sorted|16yields]");
            std::process::exit(2)
        })
    };
    let (kind, threads, turns, arg) = (number(0) as u32, number(1) as u32, number(2), number(3));
    let mut policy = Policy { yield_after_serve: 1, spins: 500, yields: 0, nap: 0, late_wakes: true };
    let mut out = vec![0u64; MOST];
    let count = match words.get(4).map_or("", String::as_str) {
        "packed" => bench::<Packed, Dense>(kind, threads, turns, arg, policy, &mut out),
        "sorted" => bench::<Split, Sorted>(kind, threads, turns, arg, policy, &mut out),
        "16yields" => {
            policy.yield_after_serve = 16;
            bench::<Split, Dense>(kind, threads, turns, arg, policy, &mut out)
        }
        _ => bench::<Split, Dense>(kind, threads, turns, arg, policy, &mut out),
    };
    let times: Vec<String> = out[..count].iter().map(u64::to_string).collect();
    println!("{}", times.join(" "));
}
