//! Makes wrong programs out of right ones: small edits of crates/CRATE/src/*.rt, picked from a seed.
//!
//! mutants SEED COUNT OUT CRATE...
//!
//! Writes the edited file of the N-th mutant to OUT/N.rt and prints a line for it, with tabs between: N, the crate, the
//! file, its line, the function and the line in it, the rule, the old text, the new text.

mod mutant;
mod order;
#[allow(dead_code)]
#[path = "../../second/src/random.rs"]
mod random;
mod rules;
mod site;
mod source;
mod tokens;

use mutant::{by_rule, Mutant};
use random::Random;
use rules::RULES;
use std::path::Path;
use std::process::ExitCode;
use std::{env, fs};

fn main() -> ExitCode {
    let args: Vec<String> = env::args().skip(1).collect();
    let [seed, count, out, crates @ ..] = &args[..] else {
        eprintln!("use: mutants SEED COUNT OUT CRATE...");
        return ExitCode::from(2);
    };
    let (Ok(seed), Ok(count)) = (seed.parse(), count.parse()) else {
        eprintln!("mutants: SEED and COUNT are numbers");
        return ExitCode::from(2);
    };
    let mut random = Random::new(seed);
    let mut left: Vec<(&String, Vec<Vec<Mutant>>)> =
        crates.iter().map(|name| (name, by_rule(name))).collect();
    let mut number = 0;
    // One of each crate in turn, by a rule that still has one there.
    while number < count && !left.is_empty() {
        left.retain(|(_, rules)| rules.iter().any(|mutants| !mutants.is_empty()));
        for (name, rules) in left.iter_mut().take(count - number) {
            let open: Vec<usize> = (0..rules.len())
                .filter(|&rule| !rules[rule].is_empty())
                .collect();
            let rule = random.pick(&open);
            let chosen = random.below(rules[rule].len());
            let mutant = rules[rule].swap_remove(chosen);
            number += 1;
            tell(number, name, RULES[rule].0, &mutant, out);
        }
    }
    ExitCode::SUCCESS
}

fn tell(number: usize, name: &str, rule: &str, mutant: &Mutant, out: &str) {
    let Mutant {
        file,
        line,
        place,
        old,
        new,
        text,
    } = mutant;
    fs::write(Path::new(out).join(format!("{number}.rt")), text).expect("the mutant's file");
    println!("{number}\t{name}\t{file}\t{line}\t{place}\t{rule}\t{old}\t{new}");
}
