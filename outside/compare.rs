//! The archive librule_deck.a against the independent reader and editor, in one process.
//!
//!     compare [SEED] [NAME=NUMBER ..] [PART ..]
//!
//! Parts: identifiers, damages, decks, edits, results; all of them if none is named. `reach=3` takes the
//! identifiers that differ from one of the 35 in up to three bytes, `reach=4` all of 32 bits.
//! `edits=N`, `decks=N` and `results=N` say how many.
mod baseline;
#[path = "compare/conversions.rs"]
mod conversions;
#[path = "compare/damages.rs"]
mod damages;
#[path = "compare/decks.rs"]
mod decks;
mod door;
#[path = "compare/identifiers.rs"]
mod identifiers;
#[path = "compare/lent.rs"]
mod lent;
#[path = "compare/lesser.rs"]
mod lesser;
#[path = "compare/results.rs"]
mod results;
#[path = "compare/runs.rs"]
mod runs;
#[path = "compare/share.rs"]
mod share;
#[path = "compare/values.rs"]
mod values;

use std::time::Instant;

const SEED: u64 = 20_260_101;

/// How many cases agreed, or the smallest case found that does not.
pub type Outcome = Result<u64, String>;

type Part = (&'static str, fn(&Plan) -> Outcome);

const PARTS: [Part; 5] = [
    ("identifiers", identifiers::all),
    ("damages", damages::all),
    ("decks", decks::all),
    ("edits", runs::all),
    ("results", results::all),
];

fn part_named(name: &str) -> Part {
    let found = PARTS.iter().find(|part| part.0 == name);
    *found.unwrap_or_else(|| {
        println!("compare: there is no part {name}");
        std::process::exit(2)
    })
}

pub struct Plan {
    pub seed: u64,
    pub reach: u64,
    pub edits: u64,
    pub decks: u64,
    pub results: u64,
    parts: Vec<Part>,
}

fn plan() -> Plan {
    let mut plan = Plan { seed: SEED, reach: 2, edits: 1_000_000, decks: 200_000, results: 200_000, parts: Vec::new() };
    for argument in std::env::args().skip(1) {
        let (name, number) = argument.split_once('=').unwrap_or(("", &argument));
        match (name, number.parse()) {
            ("", Ok(n)) => plan.seed = n,
            ("reach", Ok(n)) => plan.reach = n,
            ("edits", Ok(n)) => plan.edits = n,
            ("decks", Ok(n)) => plan.decks = n,
            ("results", Ok(n)) => plan.results = n,
            _ => plan.parts.push(part_named(&argument)),
        }
    }
    if plan.parts.is_empty() {
        plan.parts = PARTS.to_vec();
    }
    plan
}

fn main() {
    let plan = plan();
    println!("compare: seed {}", plan.seed);
    for (name, compare) in &plan.parts {
        let begun = Instant::now();
        match compare(&plan) {
            Ok(cases) => println!("compare: {name}: {cases} cases agree, {:.1} s", begun.elapsed().as_secs_f64()),
            Err(case) => {
                println!("compare: {name}: DIFFERS\n{case}");
                std::process::exit(1);
            }
        }
    }
}
