//! A stand-in for the lister, made of the baseline's listing: with it the comparison must agree, and with a fault
//! planted (by number, in the variable FAULT) it must find the fault.
mod baseline;

use baseline::deck::{read, MOST_BYTES};
use baseline::lister::list;
use baseline::text::Form;
use baseline::STUDIO;
use std::io::Read;

/// Whether the name of rule k has the long form.
fn is_long(deck: &[u8], k: &str) -> bool {
    let k: usize = k.parse().expect("a number");
    read(STUDIO, deck).map_or(false, |deck| deck.rules[k].name.form == Form::Long)
}

/// One line of a deck's listing as a lister with that fault prints it; `element` is its number within the deck.
fn faulty_line(fault: u64, deck: &[u8], line: &str, element: usize) -> String {
    let words: Vec<&str> = line.split(' ').collect();
    match (fault, words[0], &words[1..]) {
        (1, "REFUSED", [number, place]) => format!("REFUSED {place} {number}"),
        (2, "RULE", _) => line.replace("OFF", "ON"),
        (3, "ELEM", [_, identifier, size]) => format!("ELEM {element} {identifier} {size}"),
        (6, "RULE", [k, state, units, count]) => {
            format!("RULE {k} {state} {} {count}", 2 * units.parse::<usize>().expect("a number"))
        }
        (9, "RULE", [k, state, units, count]) if is_long(deck, k) => {
            // two bytes of its length as a unit
            format!("RULE {k} {state} {} {count}", 1 + units.parse::<usize>().expect("a number"))
        }
        (7, "ELEM", [i, identifier, size]) => format!("ELEM {i} {} {size}", identifier.to_lowercase()),
        (10, "DECK", [_, bytes]) => format!("DECK 1 {bytes}"), // whichever version
        (8, "END", [rules, elements]) => format!("END {elements} {rules}"),
        _ => line.to_string(),
    }
}

fn faulty(fault: u64, bytes: &[u8]) -> String {
    let shown = if fault == 5 { &bytes[..bytes.len().min(MOST_BYTES)] } else { bytes }; // a buffer of 60,000 bytes
    let text = list(shown);
    let elements = text.lines().filter(|line| line.starts_with("ELEM")).count();
    if fault == 4 && elements > 4095 {
        return "REFUSED 14 1\n".to_string(); // a table for 4,095 elements
    }
    let mut element = 0;
    let mut said = String::new();
    for line in text.lines() {
        said += &(faulty_line(fault, bytes, line, element) + "\n");
        element += usize::from(line.starts_with("ELEM"));
    }
    said
}

fn main() {
    let fault = std::env::var("FAULT").ok().and_then(|number| number.parse().ok()).unwrap_or(0);
    let mut bytes = Vec::new();
    std::io::stdin().read_to_end(&mut bytes).expect("a deck");
    print!("{}", faulty(fault, &bytes));
}
