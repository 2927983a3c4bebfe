//! Whole decks: the check, the tables, the views, the tables that say fixed fields and parts, and conversions.
use crate::baseline::deck::{read, write, Deck, One, Two};
use crate::baseline::random::{deck, rules_of_size, Random};
use crate::baseline::results::{fields_in, name_part_in, word_part_in, FIELDS, PART};
use crate::baseline::tables::{fill_from, first_byte, name_in, word_in, ELEMENT_WIDTH, RULE_WIDTH};
use crate::baseline::text::View;
use crate::baseline::{coded, Answer, DESK, STUDIO};
use crate::lent::{every_size, tables_differ};
use crate::lesser::smallest_deck;
use crate::share::{hex, pieces, said, Answers};
use crate::{conversions, door, Outcome, Plan};

/// The first difference that the calls on this deck show. `far` asks for tables of several sizes, for views, fixed fields,
/// parts and conversions.
pub fn differs(edition: u64, bytes: &[u8], far: bool) -> Option<String> {
    let deck = read(edition, bytes);
    let baseline = coded(deck.as_ref().map(|deck| deck.rules.len() as u64).map_err(|r| *r));
    let archive = door::check(edition, bytes);
    if archive != baseline {
        return Some(said("check", archive, baseline));
    }
    more(edition, bytes, &deck, far)
}

fn more(edition: u64, bytes: &[u8], deck: &Answer<Deck>, far: bool) -> Option<String> {
    let further = || views(edition, bytes, deck).or_else(|| conversions::differs(edition, bytes, deck));
    tables(edition, bytes, deck, far).or_else(|| if far { further() } else { None })
}

const AS_FOUND: u32 = 0xA5A5_A5A5;
static FIELDS_ANSWERS: Answers = Answers::new();
static PART_ANSWERS: Answers = Answers::new();

/// What the baseline makes of a deck that it read: the same refusal, or an answer of its own.
fn then<T>(deck: &Answer<Deck>, ask: impl FnOnce(&Deck) -> Answer<T>) -> Answer<T> {
    match deck {
        Ok(deck) => ask(deck),
        Err(r) => Err(*r),
    }
}

fn table_pair(edition: u64, bytes: &[u8], deck: &Answer<Deck>, rules: usize, elements: usize) -> Option<String> {
    let (mut r, mut e) = (vec![AS_FOUND; rules], vec![AS_FOUND; elements]);
    let (mut r2, mut e2) = (r.clone(), e.clone());
    let archive = door::read(edition, bytes, &mut r, &mut e);
    let baseline = coded(then(deck, |deck| fill_from(deck, &mut r2, &mut e2)));
    if archive == baseline && r == r2 && e == e2 {
        return None;
    }
    let call = said(&format!("read with tables of {rules} and {elements}"), archive, baseline);
    Some(format!("{call}\nthe archive leaves {r:x?} {e:x?}\ndocument 01 wants {r2:x?} {e2:x?}"))
}

/// Tables with a part of a row more; and far: that fit, that are short of one number, or of one a rule, or empty.
fn tables(edition: u64, bytes: &[u8], deck: &Answer<Deck>, far: bool) -> Option<String> {
    let (n, m) = match deck {
        Err(_) => (2, 2),
        Ok(Deck { rules, .. }) => (rules.len(), rules.iter().map(|r| r.elements.len()).sum()),
    };
    let (r, e) = (RULE_WIDTH * n, ELEMENT_WIDTH * m);
    let (r1, e1) = (r.max(1) - 1, e.max(1) - 1);
    let sizes = [(r + 3, e + 5), (r, e), (r1, e), (r - n, e), (r, e1), (r1, e1), (0, e), (r, 0)];
    let asked = if far { &sizes[..] } else { &sizes[..1] };
    asked.iter().find_map(|&(r, e)| table_pair(edition, bytes, deck, r, e))
}

fn view(call: &str, numbers: &[u64], archive: u64, baseline: Answer<View>) -> Option<String> {
    let baseline = coded(first_byte(baseline));
    if archive == baseline {
        return None;
    }
    Some(said(&format!("{call} {numbers:?}"), archive, baseline))
}

/// Some numbers that there are, the last among them, and some that there are not.
fn numbers(count: usize) -> Vec<u64> {
    let n = count as u64;
    let mut list = vec![0, n / 2, n.max(1) - 1, n, 1 << 32, u64::MAX];
    list.sort_unstable();
    list.dedup();
    list
}

/// Numbers of rule, element and word; where there is no such rule or element, few go on.
fn triples(deck: &Answer<Deck>) -> Vec<[u64; 3]> {
    let rules = deck.as_ref().map_or(&[][..], |deck| &deck.places);
    let mut list = vec![[u64::MAX; 3]];
    for k in numbers(rules.len()) {
        let elements = rules.get(k as usize).map_or(&[][..], |rule| &rule.elements);
        for e in numbers(elements.len()) {
            match elements.get(e as usize) {
                Some(element) => list.extend(numbers(element.words.len()).iter().map(|&w| [k, e, w])),
                None => list.push([k, e, 0]),
            }
        }
    }
    list
}

fn views(edition: u64, bytes: &[u8], deck: &Answer<Deck>) -> Option<String> {
    let rules = deck.as_ref().map_or(0, |deck| deck.rules.len());
    let name = |&k: &u64| view("name", &[k], door::name(edition, bytes, k), then(deck, |d| name_in(d, k)));
    let word = |n: &[u64; 3]| {
        let [k, e, w] = *n;
        view("word", n, door::word(edition, bytes, k, e, w), then(deck, |d| word_in(d, k, e, w)))
    };
    let of_rule =
        |k: &u64| name(k).or_else(|| fields(edition, bytes, deck, *k)).or_else(|| name_part(edition, bytes, deck, *k));
    let of_word = |n: &[u64; 3]| word(n).or_else(|| word_part(edition, bytes, deck, *n));
    numbers(rules).iter().find_map(of_rule).or_else(|| triples(deck).iter().find_map(of_word))
}

fn fields(edition: u64, bytes: &[u8], deck: &Answer<Deck>, k: u64) -> Option<String> {
    let archive = |table: &mut [u32]| door::fields(edition, bytes, k, table);
    let baseline = |table: &mut [u32]| then(deck, |d| fields_in(d, k, table));
    tables_differ(&FIELDS_ANSWERS, every_size(FIELDS), archive, baseline).map(|what| format!("fields {k}, {what}"))
}

fn name_part(edition: u64, bytes: &[u8], deck: &Answer<Deck>, k: u64) -> Option<String> {
    let archive = |table: &mut [u32]| door::name_part(edition, bytes, k, table);
    let baseline = |table: &mut [u32]| then(deck, |d| name_part_in(d, k, table));
    tables_differ(&PART_ANSWERS, every_size(PART), archive, baseline).map(|what| format!("name_part {k}, {what}"))
}

fn word_part(edition: u64, bytes: &[u8], deck: &Answer<Deck>, numbers: [u64; 3]) -> Option<String> {
    let archive = |table: &mut [u32]| door::word_part(edition, bytes, numbers, table);
    let baseline = |table: &mut [u32]| then(deck, |d| word_part_in(d, numbers, table));
    let what = tables_differ(&PART_ANSWERS, every_size(PART), archive, baseline)?;
    Some(format!("word_part {numbers:?}, {what}"))
}

/// One deck in one edition; a difference is shown on the fewest bytes found that have one.
pub fn compare(edition: u64, bytes: &[u8], far: bool) -> Outcome {
    if differs(edition, bytes, far).is_none() {
        return Ok(1);
    }
    let least = smallest_deck(bytes, |b| differs(edition, b, far).is_some());
    let what = differs(edition, &least, far).unwrap_or_default();
    Err(format!("edition {edition}, deck of {} bytes {}\n{what}", least.len(), hex(&least)))
}

fn random_edition(r: &mut Random) -> u64 {
    match r.below(20) {
        0 => r.pick(&[0, 3, 256, 257, 258, 1 << 32, (1 << 32) + 1, (1 << 32) + 2, u64::MAX]),
        n => DESK + n as u64 % 2,
    }
}

/// Decks of about 60,000 bytes in each version; and of version 1 those that become so long in version 2.
fn long(bytes: usize) -> Outcome {
    let mut cases = 0;
    for (of, version) in [(One, One), (Two, Two), (Two, One)] {
        let deck = write(version, &rules_of_size(of, bytes));
        cases += compare(DESK, &deck, true)? + compare(STUDIO, &deck, true)? + compare(3, &deck, true)?;
    }
    Ok(cases)
}

/// Random decks, sound and damaged, small ones; and sound ones about 60,000 bytes long.
pub fn all(plan: &Plan) -> Outcome {
    let each = (plan.decks / 1000).max(1) as usize;
    let random = pieces(1000, |i| {
        let mut r = Random::new(plan.seed.wrapping_mul(1000).wrapping_add(i as u64));
        let mut cases = 0;
        for _ in 0..each {
            let edition = random_edition(&mut r);
            let written_for = if r.once_in(2) { DESK } else { STUDIO };
            let bytes = deck(&mut r, written_for);
            cases += compare(edition, &bytes, r.once_in(8))?;
        }
        Ok(cases)
    })?;
    let long = pieces(8, |i| long(59_997 + i))?;
    println!("compare: decks: how often each number was answered: fields{}", FIELDS_ANSWERS.counted());
    println!("compare: decks: how often each number was answered: parts{}", PART_ANSWERS.counted());
    println!("compare: decks: how often each number was answered: conversions{}", conversions::ANSWERS.counted());
    Ok(long + random)
}
