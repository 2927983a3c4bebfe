//! Smaller cases of one that fails.
use crate::baseline::deck::{read, write, Deck, One, Rule, Two};
use crate::baseline::element::{Data, Element};
use crate::baseline::text::Text;
use crate::baseline::STUDIO;
use std::time::Instant;

/// Lists of rules that have one thing less: a rule, an element, a word; units, or the long form.
fn with_less(rules: &[Rule]) -> Vec<Vec<Rule>> {
    let mut lists = Vec::new();
    for k in (0..rules.len()).rev() {
        let mut list = rules.to_vec();
        list.remove(k);
        lists.push(list);
    }
    for (k, rule) in rules.iter().enumerate() {
        let less = lesser_rules(rule).into_iter().filter(|less| less != rule);
        lists.extend(less.map(|less| [&rules[..k], &[less], &rules[k + 1..]].concat()));
    }
    lists
}

/// What a rule becomes by each of these changes.
fn lesser_rules(rule: &Rule) -> Vec<Rule> {
    let mut list = Vec::new();
    let mut less = |change: &dyn Fn(&mut Rule)| {
        let mut changed = rule.clone();
        change(&mut changed);
        list.push(changed);
    };
    for (e, element) in rule.elements.iter().enumerate() {
        if rule.elements.len() > 1 {
            less(&|r| drop(r.elements.remove(e)));
        }
        for w in 0..words(element) {
            less(&|r| without_word(&mut r.elements[e], w));
        }
    }
    for i in 0..rule.clone().strings().len() {
        less(&|r| r.strings()[i].units.clear());
        less(&|r| halve(&mut r.strings()[i].units));
        less(&|r| in_shortest_form(r.strings()[i]));
    }
    list
}

/// How many words there are.
fn words(element: &Element) -> usize {
    match &element.data {
        Data::Words(words) => words.len(),
        _ => 0,
    }
}

fn without_word(element: &mut Element, w: usize) {
    if let Data::Words(words) = &mut element.data {
        words.remove(w);
    }
}

fn halve(units: &mut Vec<u16>) {
    units.truncate(units.len() / 2);
}

fn in_shortest_form(text: &mut Text) {
    *text = Text::shortest(std::mem::take(&mut text.units));
}

/// Decks that have one thing less, if this one is sound: an index, or a thing of its rules.
pub fn lesser_decks(bytes: &[u8]) -> Vec<Vec<u8>> {
    match read(STUDIO, bytes) {
        Err(_) => Vec::new(),
        Ok(Deck { version, rules, .. }) => {
            let plain = if version == Two { vec![write(One, &rules)] } else { Vec::new() };
            plain.into_iter().chain(with_less(&rules).iter().map(|rules| write(version, rules))).collect()
        }
    }
}

/// The smallest deck found that still fails: things are left out of its rules, then bytes.
pub fn smallest_deck(bytes: &[u8], fails: impl Fn(&[u8]) -> bool) -> Vec<u8> {
    let begun = Instant::now();
    let mut best = bytes.to_vec();
    let in_time = || begun.elapsed().as_secs() < 20;
    while let Some(lesser) = lesser_decks(&best).into_iter().find(|deck| in_time() && fails(deck)) {
        best = lesser;
    }
    fewer_bytes(&best, fails)
}

/// Bytes are left out as long as it still fails, first many together, then fewer.
pub fn fewer_bytes(bytes: &[u8], fails: impl Fn(&[u8]) -> bool) -> Vec<u8> {
    let mut best = bytes.to_vec();
    let mut size = best.len() / 2;
    let begun = Instant::now();
    while size > 0 && begun.elapsed().as_secs() < 20 {
        let mut at = 0;
        while at + size <= best.len() && begun.elapsed().as_secs() < 20 {
            let shorter = [&best[..at], &best[at + size..]].concat();
            if fails(&shorter) {
                best = shorter;
            } else {
                at += size;
            }
        }
        size /= 2;
    }
    best
}
