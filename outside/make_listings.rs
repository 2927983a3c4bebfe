//! Makes decks and what the lister must print of each, by the baseline: `make_listings DIR` writes DIR/NAME.rdk and
//! DIR/NAME.txt, always the same bytes.
mod baseline;

use baseline::deck::{write, Fixed, One, Rule, Two, Version, MOST_BYTES, MOST_RULES};
use baseline::element::{Data, Element};
use baseline::kind::{identifiers_of, row, Kind};
use baseline::lister::list;
use baseline::random::{damage, data, rules, rules_of_size, small_rule, version, Random};
use baseline::text::{Form, Text};
use baseline::STUDIO;

/// The numbers that a read as Studio into the lister's tables can give: the edition is sound, so not 1; Studio has all
/// identifiers, so not 10; the table of rules has a row for each that a deck may have, so 14 at 1 alone.
const NUMBERS: [u64; 13] = [2, 3, 4, 5, 6, 7, 8, 9, 11, 12, 13, 14, 29];
/// How many decks there are for a number, at most, by damages.
const OF_A_NUMBER: usize = 7;
/// What `io::large_buffer` holds, into which the lister reads.
const BUFFER: usize = 65_536;
const LISTED: usize = 4096;

struct Decks(Vec<(String, Vec<u8>)>);

impl Decks {
    fn add(&mut self, name: String, bytes: Vec<u8>) {
        self.0.push((name, bytes));
    }

    fn rules(&mut self, name: String, rules: &[Rule]) {
        self.add(name, write(One, rules));
    }

    fn both(&mut self, name: String, rules: &[Rule]) {
        self.add(format!("{name}_version_2"), write(Two, rules));
        self.rules(name, rules);
    }

    /// Those that are refused with that number.
    fn refused(&self, number: u64) -> usize {
        self.0.iter().filter(|(_, bytes)| number_of(bytes) == Some(number)).count()
    }
}

fn number_of(bytes: &[u8]) -> Option<u64> {
    list(bytes).strip_prefix("REFUSED ")?.split(' ').next()?.parse().ok()
}

fn rule(on: bool, units: usize, elements: Vec<Element>) -> Rule {
    let fixed = Fixed { signature: 0x0403_0201, on, unknown: [u32::MAX, 0, 7, 1] };
    Rule { fixed, name: Text::shortest((0..units as u16).map(|u| u.wrapping_mul(0x9E37)).collect()), elements }
}

/// The same rule, its name and words in the long form.
fn long(mut rule: Rule) -> Rule {
    rule.strings().into_iter().for_each(|text| text.form = Form::Long);
    rule
}

fn simple(count: usize) -> Vec<Element> {
    let all: Vec<u32> = identifiers_of(STUDIO).into_iter().filter(|&i| is_simple(i)).collect();
    all.iter().cycle().take(count).map(|&identifier| Element { identifier, data: Data::Simple }).collect()
}

fn is_simple(identifier: u32) -> bool {
    matches!(row(identifier), Some(Kind::SimpleCondition | Kind::SimpleAction | Kind::SimpleException))
}

fn every_identifier() -> Vec<Element> {
    let mut r = Random::new(3);
    let of = |identifier| Element { identifier, data: data(&mut r, row(identifier).expect("a kind")) };
    identifiers_of(STUDIO).into_iter().map(of).collect()
}

fn words(lengths: &[usize]) -> Element {
    Element { identifier: 0x219, data: Data::Words(lengths.iter().map(|&n| Text::shortest(vec![0x263A; n])).collect()) }
}

fn states(decks: &mut Decks) {
    decks.both("document_01".into(), &[small_rule(0x1F5, vec![0x41])]);
    for n in 0..16 {
        let states: String = (0..4).map(|k| if n >> k & 1 == 1 { "_on" } else { "_off" }).collect();
        let rules: Vec<Rule> = (0..4).map(|k| rule(n >> k & 1 == 1, k, simple(k + 1))).collect();
        decks.rules(format!("states{states}"), &rules);
    }
    decks.rules("state_off".into(), &[rule(false, 1, simple(1))]);
}

fn names(decks: &mut Decks) {
    for n in [0, 1, 2, 9, 10, 99, 100, 127, 128, 253, 254, 255] {
        decks.rules(format!("name_{n}"), &[rule(n % 2 == 0, n, simple(2))]);
        decks.rules(format!("names_{n}"), &[rule(true, 255 - n, simple(1)), rule(false, n, simple(3))]);
    }
    for n in [0, 1, 2, 9, 10, 99, 100, 127, 128, 253, 254] {
        decks.rules(format!("name_{n}_long"), &[long(rule(n % 2 == 0, n, simple(2)))]);
        decks.rules(format!("names_{n}_long"), &[rule(true, 254 - n, simple(1)), long(rule(false, n, simple(3)))]);
    }
}

fn counts(decks: &mut Decks) {
    for n in [0, 2, 9, 10, 11, 99, 100, 101, 255, MOST_RULES] {
        let rules: Vec<Rule> = (0..n).map(|k| rule(k % 3 > 0, k % 5, simple(1 + k % 4))).collect();
        decks.both(format!("rules_{n}"), &rules);
    }
    for n in [2, 9, 10, 11, 62, 63, 64] {
        decks.rules(format!("elements_{n}"), &[rule(false, 3, simple(n)), rule(true, 0, simple(65 - n))]);
    }
    for n in [LISTED - 1, LISTED, LISTED + 1, LISTED + 2] {
        let many = |k: usize| rule(k % 2 == 0, 0, simple((n - 64 * k).min(64)));
        decks.both(format!("all_elements_{n}"), &(0..(n + 63) / 64).map(many).collect::<Vec<_>>());
    }
    let lists = |k| rule(k % 2 == 1, 0, vec![words(&[]); 64]);
    decks.rules("all_elements_5504".into(), &(0..86).map(lists).collect::<Vec<_>>());
}

fn kinds(decks: &mut Decks) {
    let all = every_identifier();
    decks.rules("identifiers_in_a_rule".into(), &[rule(true, 1, all.clone())]);
    let alone: Vec<Rule> = all.iter().map(|element| rule(false, 2, vec![element.clone()])).collect();
    decks.both("identifiers_in_rules".into(), &alone);
    for (i, lengths) in [vec![], vec![0], vec![254], vec![255], vec![0, 255, 1], vec![3; 64]].iter().enumerate() {
        let lists = rule(true, 0, vec![words(lengths), words(&[1]), words(lengths)]);
        decks.rules(format!("words_{i}"), &[lists.clone()]);
        decks.rules(format!("words_{i}_long"), &[long(lists)]);
    }
}

/// Lengths about the longest deck's and about the lister's buffer, sound decks with zeros behind and zeros alone.
fn lengths(decks: &mut Decks) {
    for n in [MOST_BYTES - 1, MOST_BYTES, MOST_BYTES + 1] {
        decks.rules(format!("bytes_{n}"), &rules_of_size(One, n));
        decks.add(format!("bytes_{n}_version_2"), write(Two, &rules_of_size(Two, n)));
    }
    let sizes = [MOST_BYTES, MOST_BYTES + 1, BUFFER - 1, BUFFER, BUFFER + 1, BUFFER + MOST_BYTES, 3 * BUFFER + 7];
    for n in sizes {
        let longest = if n > MOST_BYTES { MOST_BYTES } else { MOST_BYTES - 1 };
        let mut bytes = write(One, &rules_of_size(One, longest));
        bytes.resize(n, 0);
        decks.add(format!("bytes_{n}_behind"), bytes);
        decks.add(format!("bytes_{n}_zeros"), vec![0; n]);
    }
}

fn every_damage(deck: &[u8]) -> Vec<Vec<u8>> {
    let mut all: Vec<Vec<u8>> = (0..deck.len()).map(|n| deck[..n].to_vec()).collect();
    all.extend([[deck, &[0]].concat(), [deck, &[1, 2, 3]].concat()]);
    for at in 0..deck.len() {
        for other in [deck[at] ^ 1, deck[at] ^ 0x80, 0xFF, 0] {
            let mut damaged = deck.to_vec();
            damaged[at] = other;
            all.push(damaged);
        }
    }
    all
}

/// For each number, decks that are refused with it at different places, spread over those that damages give.
fn refusals(decks: &mut Decks) {
    let lists = vec![words(&[255, 0]), words(&[])];
    let rules = [long(rule(true, 254, lists)), rule(false, 0, every_identifier())];
    let mut seen: Vec<(String, Vec<u8>)> = Vec::new();
    for damaged in Version::ALL.iter().flat_map(|&version| every_damage(&write(version, &rules))) {
        let said = list(&damaged);
        if said.starts_with("REFUSED") && !seen.iter().any(|(other, _)| *other == said) {
            seen.push((said, damaged));
        }
    }
    for number in NUMBERS {
        let of: Vec<&Vec<u8>> = seen.iter().map(|(_, bytes)| bytes).filter(|b| number_of(b) == Some(number)).collect();
        for bytes in of.iter().step_by(((of.len() + OF_A_NUMBER - 1) / OF_A_NUMBER).max(1)) {
            decks.add(list(bytes).trim().to_lowercase().replace(' ', "_"), bytes.to_vec());
        }
    }
}

fn random(decks: &mut Decks) {
    let mut r = Random::new(1);
    for n in 0..60 {
        let mut bytes = write(version(&mut r), &rules(&mut r, STUDIO));
        if n % 3 == 0 {
            damage(&mut r, &mut bytes);
        }
        decks.add(format!("random_{n}"), bytes);
    }
}

fn main() {
    let directory = std::env::args().nth(1).expect("make_listings DIR");
    let mut decks = Decks(Vec::new());
    for add in [states, names, counts, kinds, lengths, refusals, random] {
        add(&mut decks);
    }
    for (name, bytes) in &decks.0 {
        std::fs::write(format!("{directory}/{name}.rdk"), bytes).expect("a folder to write to");
        std::fs::write(format!("{directory}/{name}.txt"), list(bytes)).expect("a folder to write to");
    }
    let listed = decks.0.iter().filter(|(_, bytes)| number_of(bytes).is_none()).count();
    let by_number: Vec<String> = NUMBERS.iter().map(|&n| format!("{n}: {}", decks.refused(n))).collect();
    assert!(NUMBERS.iter().all(|&n| decks.refused(n) > 0), "a number is missing: {}", by_number.join(", "));
    println!("{} decks: {listed} listed; refused with {}", decks.0.len(), by_number.join(", "));
}
