//! Every cut and every damage of a single byte, of decks that together have every identifier.
use crate::baseline::deck::{write, Fixed, One, Rule, Two};
use crate::baseline::element::{Data, Element, Span};
use crate::baseline::kind::{identifiers_of, row, Kind};
use crate::baseline::random::small_rule;
use crate::baseline::text::{Form, Text};
use crate::baseline::{DESK, STUDIO};
use crate::decks::compare;
use crate::share::pieces;
use crate::{Outcome, Plan};

fn text(form: Form, units: u16) -> Text {
    Text { form, units: (0..units).collect() }
}

fn element(identifier: u32) -> Element {
    let data = match row(identifier) {
        Some(Kind::Marker) => Data::Marker,
        Some(Kind::Size) => Data::Size { minimum: 3, maximum: 0x0102_0304 },
        Some(Kind::Dates) => Data::Dates(Span {
            after_set: true,
            after: 2.5f64.to_bits(),
            before_set: identifier == 0xE1,
            before: (-1.25f64).to_bits(),
        }),
        Some(Kind::WordList) => {
            let n = identifier as u16 % 3;
            Data::Words((1..=n).map(|units| text(Form::Short, units)).collect())
        }
        _ => Data::Simple,
    };
    Element { identifier, data }
}

fn rule_in(form: Form, units: u16, elements: Vec<Element>) -> Rule {
    let fixed = Fixed { signature: 0x0102_0304, on: units % 2 == 1, unknown: [5, 6, 7, 0xFFFF_FFFF] };
    Rule { fixed, name: text(form, units), elements }
}

fn rule(units: u16, elements: Vec<Element>) -> Rule {
    rule_in(Form::Short, units, elements)
}

/// All identifiers of the edition, a few to a rule.
fn every_kind(edition: u64) -> Vec<Rule> {
    let identifiers = identifiers_of(edition);
    identifiers.chunks(9).zip(1..).map(|(some, name)| rule(name, some.iter().map(|&i| element(i)).collect())).collect()
}

fn words(texts: &[(Form, u16)]) -> Element {
    let words = texts.iter().map(|&(form, units)| text(form, units)).collect();
    Element { identifier: 0x212, data: Data::Words(words) }
}

/// Each form, and each with few units, beside the other.
fn both_forms() -> Vec<Rule> {
    let list = words(&[(Form::Long, 0), (Form::Short, 1), (Form::Long, 2), (Form::Short, 0)]);
    vec![rule_in(Form::Long, 0, vec![element(0x64)]), rule_in(Form::Long, 3, vec![list]), rule(1, vec![element(0xC8)])]
}

pub fn decks() -> Vec<Vec<u8>> {
    vec![
        write(One, &[]),
        write(One, &[small_rule(0x1F5, vec![0x41])]),
        write(One, &[rule(0, vec![element(0x64)]), rule(1, vec![element(0x14F)])]),
        write(One, &every_kind(DESK)),
        write(One, &every_kind(STUDIO)),
        write(One, &[rule(3, vec![words(&[(Form::Short, 0); 64])])]),
        write(One, &[rule_in(Form::Long, 255, vec![words(&[(Form::Short, 1)])])]),
        write(One, &both_forms()),
        write(Two, &[]),
        write(Two, &both_forms()),
        write(One, &[rule_in(Form::Long, 254, vec![words(&[(Form::Long, 1)])])]),
    ]
}

pub fn all(_: &Plan) -> Outcome {
    let mut places = Vec::new();
    let decks = decks();
    for (i, deck) in decks.iter().enumerate() {
        places.extend((0..=deck.len()).map(|at| (i, at)));
    }
    pieces(places.len(), |i| {
        let (deck, at) = (&decks[places[i].0], places[i].1);
        let mut cases = 0;
        for edition in 0..4 {
            cases += compare(edition, &deck[..at], true)?;
        }
        let mut damaged = deck.clone();
        for change in 1..=255 {
            if at < deck.len() {
                damaged[at] = deck[at] ^ change;
                cases += compare(DESK, &damaged, false)? + compare(STUDIO, &damaged, false)?;
            }
        }
        Ok(cases)
    })
}
