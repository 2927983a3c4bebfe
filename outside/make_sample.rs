//! Makes the samples by the baseline: `make_sample FOLDER`. They are document 01's deck, in both versions, and a deck that
//! has every identifier.
mod baseline;

use baseline::deck::{check, write, Fixed, One, Rule, Two, Version};
use baseline::element::{Data, Element, Span};
use baseline::kind::{MARKER, SIMPLE_ACTIONS, SIMPLE_CONDITIONS, SIMPLE_EXCEPTIONS};
use baseline::random::small_rule;
use baseline::text::Text;
use baseline::STUDIO;

fn units(text: &str) -> Vec<u16> {
    text.encode_utf16().collect()
}

fn rule(name: Vec<u16>, on: bool, elements: Vec<Element>) -> Rule {
    let fixed = Fixed { signature: 0x0100_0614, on, unknown: [1, 0, u32::MAX, 7] };
    Rule { fixed, name: Text::shortest(name), elements }
}

fn simple(identifier: u32) -> Element {
    Element { identifier, data: Data::Simple }
}

fn size(identifier: u32, minimum: u32, maximum: u32) -> Element {
    Element { identifier, data: Data::Size { minimum, maximum } }
}

/// A date that counts, or one that only stands there.
type Bound = (bool, f64);

fn dates(identifier: u32, (after_set, after): Bound, (before_set, before): Bound) -> Element {
    let span = Span { after_set, after: after.to_bits(), before_set, before: before.to_bits() };
    Element { identifier, data: Data::Dates(span) }
}

fn words(identifier: u32, list: Vec<Vec<u16>>) -> Element {
    Element { identifier, data: Data::Words(list.into_iter().map(Text::shortest).collect()) }
}

fn every_simple() -> Rule {
    let marker = Element { identifier: MARKER[0], data: Data::Marker };
    let rest = [&SIMPLE_CONDITIONS[..], &SIMPLE_ACTIONS[..], &SIMPLE_EXCEPTIONS[..]].concat();
    let elements = std::iter::once(marker).chain(rest.into_iter().map(simple)).collect();
    rule(units("Every simple element"), true, elements)
}

/// Off; its name has characters of two, three and four bytes in UTF-8, the last of them a pair of units.
fn sizes() -> Rule {
    let elements = vec![size(0xE0, 1024, u32::MAX), size(0x20C, 500, 100), simple(0x14C)];
    rule(units("Größe ≥ 1 MB 📦"), false, elements)
}

/// Its name has a high surrogate alone inside and a low one alone at the end.
fn spans() -> Rule {
    let name = [units("Lone "), vec![0xD83D], units(" inside, last "), vec![0xDCE6]].concat();
    let elements = vec![
        dates(0xE1, (true, 2.5), (true, 2_958_465.5)),
        dates(0x20D, (true, -1.25), (false, -0.25)),
        dates(0xE1, (false, 0.0), (true, 45_351.0 + 49_510.0 / 86_400.0)),
        dates(0x20D, (false, -0.0), (false, -657_434.0)),
    ];
    rule(name, true, elements)
}

/// Its name is empty.
fn lists() -> Rule {
    let long = (0..255).map(|i| 0x61 + i % 26).collect();
    let elements = vec![
        words(0x211, vec![units("sales@"), units("Übersicht"), vec![], units("📦📦")]),
        words(0x212, vec![]),
        words(0x213, vec![vec![0xDCE6, 0xD83D], long]),
        words(0x219, vec![units("weekly \"digest\"")]),
    ];
    rule(vec![], true, elements)
}

fn put(name: &str, version: Version, rules: &[Rule]) {
    let folder = std::env::args().nth(1).expect("make_sample FOLDER");
    let deck = write(version, rules);
    assert_eq!(check(STUDIO, &deck), Ok(rules.len() as u64));
    std::fs::write(format!("{folder}/{name}.rdk"), deck).expect("the sample is written");
}

fn main() {
    let one_rule = [small_rule(0x1F5, vec![0x41])];
    put("one_rule", One, &one_rule);
    put("one_rule_2", Two, &one_rule);
    put("every_kind", One, &[every_simple(), sizes(), spans(), lists()]);
}
