//! Times the library's `vangprune_verdict` and the plain implementation on the same texts in one run. The arguments
//! are files, each a law text with a case text directly after it. First both must answer the same cause on every text
//! and on single-byte mutations of it.

mod plain;

use std::collections::BTreeMap;
use std::hint::black_box;
use std::process::ExitCode;
use std::time::Instant;

const MUTATIONS: usize = 400;
const WARM_UP_ROUNDS: usize = 100;
const ROUNDS: usize = 1000;
/// Short, so that on a busy machine most rounds run undisturbed.
const ROUND_NANOSECONDS: f64 = 500_000.0;

unsafe extern "C" {
    fn vangprune_verdict(text: *const u8, len: usize) -> u32;
}

fn library_verdict(text: &[u8]) -> u32 {
    // SAFETY: pointer and length are those of a slice, and the function only reads these bytes.
    unsafe { vangprune_verdict(text.as_ptr(), text.len()) }
}

type Verdict = fn(&[u8]) -> u32;

fn main() -> ExitCode {
    let names: Vec<String> = std::env::args().skip(1).collect();
    if names.is_empty() {
        eprintln!("usage: bench FILE..");
        return ExitCode::from(2);
    }
    let mut texts = Vec::new();
    for name in names {
        match std::fs::read(&name) {
            Ok(text) => texts.push((name, text)),
            Err(error) => {
                eprintln!("bench: {name}: {error}");
                return ExitCode::from(2);
            }
        }
    }
    for (name, text) in &texts {
        if let Err(difference) = compare(text) {
            eprintln!("bench: {name}: {difference}");
            return ExitCode::FAILURE;
        }
    }
    println!("median nanoseconds of a call, {ROUNDS} rounds");
    println!("{:<28} {:>6} {:>5} {:>10} {:>10} {:>14}", "text", "bytes", "cause", "library", "plain", "library/plain");
    for (name, text) in &texts {
        let (library, plain) = time_both(text);
        let (bytes, cause) = (text.len(), plain::verdict(text));
        println!("{name:<28} {bytes:>6} {cause:>5} {library:>10.0} {plain:>10.0} {:>14.2}", library / plain);
    }
    ExitCode::SUCCESS
}

/// Compares both implementations on a text, on the empty text and on mutations of the text, and prints how often each
/// cause was answered.
fn compare(text: &[u8]) -> Result<(), String> {
    let mut random = Random(0x9e37_79b9_7f4a_7c15);
    let mut tried = vec![text.to_vec(), Vec::new()];
    tried.extend((0..MUTATIONS).map(|_| mutated(text, &mut random)));
    let mut counts: BTreeMap<u32, usize> = BTreeMap::new();
    for (number, text) in tried.iter().enumerate() {
        let (library, plain) = (library_verdict(text), plain::verdict(text));
        if library != plain {
            return Err(format!("text {number}: the library answers {library}, the plain implementation {plain}"));
        }
        *counts.entry(plain).or_default() += 1;
    }
    let counts: Vec<String> = counts.iter().map(|(cause, count)| format!("{cause}: {count}")).collect();
    println!("same cause on {} texts (cause: how many) {}", tried.len(), counts.join(", "));
    Ok(())
}

/// The text with one byte replaced, left out or put in.
fn mutated(text: &[u8], random: &mut Random) -> Vec<u8> {
    const BYTES: &[u8] = b"0123456789- \nx\r\x00\xff";
    let mut mutant = text.to_vec();
    let byte = BYTES[random.below(BYTES.len())];
    match random.below(4) {
        0 if !text.is_empty() => {
            mutant.remove(random.below(text.len()));
        }
        1 => mutant.insert(random.below(text.len() + 1), byte),
        _ if !text.is_empty() => mutant[random.below(text.len())] = byte,
        _ => {}
    }
    mutant
}

/// The median nanoseconds of a call to the library and to the plain implementation. The rounds alternate, and so does
/// which of the two comes first.
fn time_both(text: &[u8]) -> (f64, f64) {
    let one = time_round(library_verdict, text, 100).max(time_round(plain::verdict, text, 100));
    let calls = ((ROUND_NANOSECONDS / one) as usize).max(1);
    let (mut library, mut plain) = (Vec::new(), Vec::new());
    for round in 0..WARM_UP_ROUNDS + ROUNDS {
        if round % 2 == 0 {
            library.push(time_round(library_verdict, text, calls));
            plain.push(time_round(plain::verdict, text, calls));
        } else {
            plain.push(time_round(plain::verdict, text, calls));
            library.push(time_round(library_verdict, text, calls));
        }
    }
    (median(&library[WARM_UP_ROUNDS..]), median(&plain[WARM_UP_ROUNDS..]))
}

/// The nanoseconds of a call, as the mean over one round.
fn time_round(verdict: Verdict, text: &[u8], calls: usize) -> f64 {
    let start = Instant::now();
    for _ in 0..calls {
        black_box(black_box(verdict)(black_box(text)));
    }
    start.elapsed().as_nanos() as f64 / calls as f64
}

fn median(times: &[f64]) -> f64 {
    let mut sorted = times.to_vec();
    sorted.sort_by(f64::total_cmp);
    let middle = sorted.len() / 2;
    if sorted.len() % 2 == 1 { sorted[middle] } else { (sorted[middle - 1] + sorted[middle]) / 2.0 }
}

/// A small generator of numbers (xorshift), the same ones in every run.
struct Random(u64);

impl Random {
    fn below(&mut self, bound: usize) -> usize {
        self.0 ^= self.0 << 13;
        self.0 ^= self.0 >> 7;
        self.0 ^= self.0 << 17;
        (self.0 >> 11) as usize % bound
    }
}
