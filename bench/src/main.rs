//! Compares the proved hub with one in plain Rust on random scripts, and times both.

#![deny(unsafe_code)]

mod cases;
mod compare;
mod counting;
mod coverage;
mod outcome;
mod plain;
mod play;
mod proved;
mod random;
mod script;
mod scripts;
mod shift;
mod side;
mod stack;
mod timing;

use std::process::ExitCode;

use cases::Case;
use plain::{Hub, Image, Table};
use script::MAX_BUFFER;
use side::{PLAIN, PROVED};

const SEED: u64 = 20_261_127;

fn main() -> ExitCode {
    let word = std::env::args().nth(1);
    if word.as_deref() == Some(counting::PLAYS) {
        counting::play_all(&all_cases());
        return ExitCode::SUCCESS;
    }
    let seed = match word.map(|word| word.parse()) {
        None => SEED,
        Some(Ok(seed)) => seed,
        Some(Err(_)) => {
            eprintln!("usage: bench [SEED]");
            return ExitCode::FAILURE;
        }
    };
    if !compare(seed) {
        return ExitCode::FAILURE;
    }
    print_costs();
    print_sizes();
    print_stack(seed);
    ExitCode::SUCCESS
}

/// Whether the hubs agree on random scripts, and these have met every refusal.
fn compare(seed: u64) -> bool {
    println!("Comparison of both hubs, seed {seed}\n");
    let coverage = match compare::compare_all(seed) {
        Ok(coverage) => coverage,
        Err(difference) => {
            println!("{difference}");
            return false;
        }
    };
    println!("{coverage}, no difference");
    let missing = coverage.missing();
    if !missing.is_empty() {
        println!("but no call was refused with {missing:?}");
    }
    missing.is_empty()
}

/// Every case, in the order in which their costs are printed.
fn all_cases() -> Vec<Case> {
    let mut all = vec![cases::play_of_a_call()];
    all.extend(cases::groups().into_iter().flat_map(|group| group.cases));
    all
}

fn print_costs() {
    println!("\nNanoseconds and instructions of a call, the play of the call subtracted (but for the first line)\n");
    println!("{:<52}{:>28}   {:>28}", "", "nanoseconds", "instructions");
    println!("{:<52}{1:>10}{2:>10}{3:>8}   {1:>10}{2:>10}{3:>8}", "", "plain", "proved", "ratio");
    let counts = counting::count(&all_cases());
    if let Err(reason) = &counts {
        println!("(no instructions: {reason})");
    }
    let mut counts = counts.unwrap_or_default().into_iter();
    print_cost(&cases::play_of_a_call(), counts.next());
    for group in cases::groups() {
        println!("{}", group.heading);
        for case in &group.cases {
            case.check();
            print_cost(case, counts.next());
        }
    }
}

fn print_cost(case: &Case, instructions: Option<[f64; 2]>) {
    let nanoseconds = columns(timing::time(case), 1);
    let instructions = instructions.map_or(String::new(), |both| columns(both, 0));
    println!("    {:<48}{nanoseconds}   {instructions}", case.name);
}

/// The figures of both sides, with so many decimals, and their ratio.
fn columns([plain, proved]: [f64; 2], decimals: usize) -> String {
    format!("{plain:>10.decimals$}{proved:>10.decimals$}{:>8.2}", proved / plain)
}

fn print_sizes() {
    /// What the pages say of the proved hub.
    const PROVED_TABLE: usize = 14_232;
    const PROVED_IMAGE: usize = 13_264;
    let buffers = 2 * MAX_BUFFER;
    println!("\nBytes of a hub with a receive and a send buffer (the proved ones as the pages have them)\n");
    println!("{:<50}{:>10}{:>10}", "", "plain", "proved");
    println!("{:<50}{:>10}{PROVED_TABLE:>10}", "over a table", size_of::<Hub<Table>>() + buffers);
    println!("{:<50}{:>10}{PROVED_IMAGE:>10}", "over an image", size_of::<Hub<Image>>() + buffers);
}

fn print_stack(seed: u64) {
    let [plain, proved] = [PLAIN, PROVED].map(|side| stack::high_water_marks(side, seed));
    println!("\nBytes of stack that one play writes to at most, its hub included\n");
    println!("{:<50}{:>10}{:>10}", "", "plain", "proved");
    println!("{:<50}{:>10}{:>10}", "over a table", plain.table, proved.table);
    println!("{:<50}{:>10}{:>10}", "over an image", plain.image, proved.image);
    println!("{:<50}{:>10}{:>10}", "no play at all (the measuring itself)", plain.measuring, proved.measuring);
}
