//! What some calls cost, the archive beside plain Rust of the same work: `speed EDITION FOLDER`, run under outside/count.c.
//!
//! For each call, shape of deck and number of rules a line "case CALL SHAPE RULES" on standard error, between two counts the
//! archive's work and between the next two plain Rust's. Before them "case nothing": what a measure itself takes. The two
//! must agree on the answer, on tables and buffers. The decks go to FOLDER, for the listers.
//!
//! The edition is an argument so that the compiler knows it of neither.
mod baseline;
mod door;
mod plain;

use baseline::deck::{write, Fixed, One, Rule, Two};
use baseline::edit::Edit;
use baseline::element::{Data, Element, Span};
use baseline::random::small_rule;
use baseline::text::Text;

const ROOM: usize = 60_000;

fn text(n: usize) -> Text {
    Text::shortest((0x41..).take(n).collect())
}

/// One element of each kind; names, words and states by the rule's number.
fn mixed_rule(k: usize) -> Rule {
    let span =
        Span { after_set: true, after: 40_000.5f64.to_bits(), before_set: k % 2 == 0, before: 45_000.25f64.to_bits() };
    let elements = vec![
        Element { identifier: 0x64, data: Data::Marker },
        Element { identifier: [0xC8, 0x12D, 0x1F5][k % 3], data: Data::Simple },
        Element { identifier: [0x211, 0x219][k % 2], data: Data::Words(vec![text(3 + k % 4), text(5)]) },
        Element { identifier: [0xE0, 0x20C][k % 2], data: Data::Size { minimum: 1, maximum: 70_000 } },
        Element { identifier: [0xE1, 0x20D][k % 2], data: Data::Dates(span) },
    ];
    Rule { fixed: Fixed { signature: 7, on: k % 2 == 0, unknown: [1, 2, 0, 3] }, name: text(k % 12), elements }
}

fn mark() {
    let _ = std::process::id();
}

/// What it answers, between two marks.
fn measured<T>(work: impl FnOnce() -> T) -> T {
    mark();
    let answer = work();
    mark();
    answer
}

struct Case<'a> {
    edition: u64,
    shape: &'a str,
    deck: &'a [u8],
    rules: usize,
}

impl Case<'_> {
    fn tell(&self, call: &str) {
        eprintln!("case {call} {} {}", self.shape, self.rules);
    }

    /// A call that changes nothing but what it is lent, numbers or bytes, which begin as they are given here.
    fn compare<T: Clone + PartialEq>(
        &self,
        call: &str,
        lent: T,
        archive: impl FnOnce(&mut T) -> u64,
        plain: impl FnOnce(&mut T) -> u64,
    ) {
        let (mut a, mut p) = (lent.clone(), lent);
        self.tell(call);
        let answers = (measured(|| archive(&mut a)), measured(|| plain(&mut p)));
        assert!(answers.0 == answers.1 && a == p, "{call}: archive and plain Rust differ, {answers:?}");
    }

    fn edit(&self, edit: Edit) {
        let (edition, n) = (self.edition, self.deck.len() as u64);
        let mut buf = self.deck.to_vec();
        buf.resize(ROOM, 0xA5);
        let archive = |b: &mut Vec<u8>| door::edit(edition, b, n, &edit);
        match &edit {
            Edit::Switch { k, on } => {
                self.compare("switch", buf, archive, |b| plain::edit::switch(edition, b, n, *k, *on))
            }
            Edit::Remove { k } => self.compare("remove", buf, archive, |b| plain::edit::remove(edition, b, n, *k)),
            Edit::Insert { k, second, j } => {
                self.compare("insert", buf, archive, |b| plain::edit::insert(edition, b, n, *k, second, *j))
            }
            _ => unreachable!(),
        }
    }

    fn check(&self) {
        let (edition, deck) = (self.edition, self.deck);
        self.compare("check", (), |_| door::check(edition, deck), |_| plain::check(edition, deck));
    }

    /// The name of the last rule.
    fn name(&self) {
        let (edition, deck, last) = (self.edition, self.deck, self.rules as u64 - 1);
        self.compare("name", (), |_| door::name(edition, deck, last), |_| plain::name(edition, deck, last));
    }

    /// A rule more would be one too many of 256: a deck of 255 is inserted into, the last rule of itself in front.
    fn calls(&self, less: &[u8]) {
        let (edition, deck) = (self.edition, self.deck);
        let last = self.rules as u64 - 1;
        self.check();
        self.name();
        let tables = (vec![0u32; 2048], vec![0u32; 8192]);
        self.compare(
            "read",
            tables,
            |(r, e)| door::read(edition, deck, r, e),
            |(r, e)| plain::read(edition, deck, r, e),
        );
        let e = if self.shape == "mixed" { 2 } else { 0 };
        self.compare("word", (), |_| door::word(edition, deck, last, e, 1), |_| plain::word(edition, deck, last, e, 1));
        self.edit(Edit::Switch { k: last, on: false });
        self.edit(Edit::Remove { k: 0 });
        let into = Case { deck: less, ..*self };
        into.edit(Edit::Insert { k: 0, second: deck.to_vec(), j: last });
    }
}

fn main() {
    let words: Vec<String> = std::env::args().collect();
    let edition = words[1].parse().unwrap();
    eprintln!("case nothing none 0");
    measured(|| ());
    measured(|| ());
    let shapes: [(&str, fn(usize) -> Rule); 2] = [("small", |_| small_rule(0x1F5, vec![0x41])), ("mixed", mixed_rule)];
    for (shape, rule) in shapes {
        for n in [1, 32, 256] {
            let rules: Vec<Rule> = (0..n).map(rule).collect();
            let deck = write(One, &rules);
            std::fs::write(format!("{}/{shape}.{n}", words[2]), &deck).unwrap();
            Case { edition, shape, deck: &deck, rules: n }.calls(&write(One, &rules[1..]));
            let indexed = Case { edition, shape: &format!("{shape}_2"), deck: &write(Two, &rules), rules: n };
            indexed.check();
            indexed.name();
        }
    }
    std::fs::write(format!("{}/none.0", words[2]), write(One, &[])).unwrap();
}
