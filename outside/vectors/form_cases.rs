//! The cases of a String's form: names and words in each form, kept or chosen afresh; lengths that no String has.
use crate::baseline::deck::{check, write, One, Rule};
use crate::baseline::edit::Edit;
use crate::baseline::element::{data_bytes, Data, Element};
use crate::baseline::random::rules_of_size;
use crate::baseline::text::{bytes_of, Form, Text};
use crate::baseline::{coded, DESK, STUDIO};
use crate::call::*;
use crate::file::File;
use crate::parts::*;

/// Names and words in each form, and edits of them.
pub fn all_forms() -> File {
    let mut file = File::new("forms");
    texts().iter().for_each(|text| names(&mut file, text));
    texts().iter().for_each(|text| lists(&mut file, text));
    file
}

/// Lengths that no String has, and what else may be wrong with one.
pub fn all_strings() -> File {
    let mut file = File::new("strings");
    faulty_strings().iter().for_each(|string| faulty_names(&mut file, string));
    faulty_strings().iter().for_each(|string| faulty_words(&mut file, string));
    damages(&mut file);
    at_the_limits(&mut file);
    run(&mut file);
    file
}

/// Each form with no unit, with one, and with as many as it takes; the long one with as many as the short one takes, too.
fn texts() -> Vec<Text> {
    let forms = [(Form::Short, 0), (Form::Short, 1), (Form::Short, 254)];
    let long = [0, 1, 254, 255].map(|n| (Form::Long, n));
    let text = |(form, n)| Text { form, units: (0x61..).take(n).collect() };
    forms.into_iter().chain(long).map(text).collect()
}

/// A rule of that name before another and behind it.
fn names(file: &mut File, text: &Text) {
    let other = rule(2, vec![element(0x12D)]);
    let named = Rule { name: text.clone(), ..rule(1, vec![element(0xC8), element(0x64)]) };
    for (k, rules) in [(0, [named.clone(), other.clone()]), (1, [other, named])] {
        let deck = write(One, &rules);
        file.base(&buffered(&deck, 1300));
        file.call(CHECK, &[DESK], &[&deck]);
        let (r, e) = table_rooms(2, 3);
        file.call(READ, &[STUDIO, r, e], &[&deck]);
        for k in [0, 1] {
            name(file, DESK, &deck, k);
            file.call(FIELDS, &[DESK, k, 6], &[&deck]);
            edit(file, DESK, &deck, 1300, &Edit::Remove { k });
        }
        for what in name_edits(k, &deck, text) {
            edit(file, DESK, &deck, 1300, &what);
        }
    }
}

/// Renamed by its own units and by others, a form chosen each time; the edits that keep the forms that stand there.
fn name_edits(k: u64, deck: &[u8], text: &Text) -> Vec<Edit> {
    let mut edits = vec![Edit::Rename { k, name: bytes_of(&text.units) }];
    edits.extend([0, 1, 254, 255].map(|n| Edit::Rename { k, name: units(n) }));
    edits.extend([Edit::Switch { k, on: true }, Edit::Switch { k, on: false }]);
    edits.extend([0, 1, 2].map(|place| Edit::Insert { k: place, second: deck.to_vec(), j: k }));
    edits.extend([0, 1, 255].map(|n| simple_rule(units(n))));
    edits
}

fn list_of(words: &[&Text]) -> Element {
    Element { identifier: 0x213, data: Data::Words(words.iter().map(|&word| word.clone()).collect()) }
}

/// A list that has the word twice, another between.
fn lists(file: &mut File, text: &Text) {
    let list = list_of(&[text, &Text::shortest(vec![0x41]), text]);
    let data = data_bytes(&list.data);
    let deck = write(One, &[rule(1, vec![element(0xE0)]), rule(2, vec![element(0x64), list])]);
    file.base(&buffered(&deck, 1300));
    file.call(CHECK, &[STUDIO], &[&deck]);
    let (r, e) = table_rooms(2, 3);
    file.call(READ, &[STUDIO, r, e], &[&deck]);
    for w in 0..=3 {
        word(file, STUDIO, &deck, [1, 1, w]);
    }
    value(file, STUDIO, 0x213, &data);
    let mut edits = vec![Edit::Remove { k: 0 }, Edit::Rename { k: 1, name: units(3) }];
    edits.extend([0, 1, 2].map(|k| Edit::Insert { k, second: deck.clone(), j: 1 }));
    edits.extend([0, 1, 254, 255].map(|n| Edit::AddWord { word: units(n) }));
    edits.extend([add_rule(units(1), 0x213, data.clone()), Edit::AddElement { identifier: 0x213, data: data.clone() }]);
    for what in edits {
        edit(file, STUDIO, &deck, 1300, &what);
    }
    edit(file, STUDIO, &write(One, &[]), 1300, &add_rule(units(0), 0x219, data));
}

/// Lengths beyond 255, with their units and without; lengths that are cut, and units that are.
fn faulty_strings() -> Vec<Vec<u8>> {
    let with = |length: &[u8], units: usize| [length, &vec![0; 2 * units]].concat();
    let over = [(0x0100, 256), (0x0100, 255), (0x0100, 0), (0x0101, 257), (0x01FF, 1), (0xFFFF, 300)];
    let cut: [(&[u8], usize); 8] = [
        (&[], 0),
        (&[0xFF], 0),
        (&[0xFF, 0], 0),
        (&[0xFF, 0xFF], 0),
        (&[0xFE], 253),
        (&[0xFF, 254, 0], 253),
        (&[0xFF, 255, 0], 254),
        (&[0xFF, 1, 0], 0),
    ];
    let over = over.iter().map(|&(n, units)| with(&[0xFF, n as u8, (n >> 8) as u8], units));
    over.chain(cut.iter().map(|&(length, units)| with(length, units))).collect()
}

/// The String as a name, first and second in its deck, at the deck's end or with the rest of its rule behind.
fn faulty_names(file: &mut File, string: &[u8]) {
    let deck = write(One, &[rule(1, vec![element(0xC8)]), rule(1, vec![element(0xC9)])]);
    file.base(&buffered(&deck, 30));
    for start in [7, deck.len() - 47] {
        for rest in [&deck[start + 7..], &[]] {
            let faulty = [&deck[..start + 4], string, rest].concat();
            for edition in EDITIONS {
                file.call(CHECK, &[edition], &[&faulty]);
            }
            name(file, STUDIO, &faulty, 0);
            edit(file, DESK, &faulty, 30, &Edit::Rename { k: 0, name: units(1) });
            edit(file, DESK, &deck, 30, &Edit::Insert { k: 0, second: faulty, j: 0 });
        }
    }
}

/// The String as a word of lone data and of given data, at their end or with another word behind.
fn faulty_words(file: &mut File, string: &[u8]) {
    let deck = write(One, &three_rules(STUDIO));
    file.base(&buffered(&deck, 30));
    for rest in [&[0; 5][..], &[]] {
        let data = [&[2, 0, 0, 0, 0, 0, 0, 0], string, rest].concat();
        value(file, STUDIO, 0x211, &data);
        edit(file, STUDIO, &deck, 30, &Edit::AddElement { identifier: 0x211, data: data.clone() });
        edit(file, STUDIO, &deck, 30, &add_rule(units(1), 0x211, data));
    }
}

fn long_rules() -> Vec<Rule> {
    vec![long(rule(1, vec![element(0xC8)])), long(rule(0, vec![words(&[2, 0])])), rule(2, vec![words(&[1])])]
}

/// Faults of a deck and of data whose Strings have the long form: each answer once for each edition.
fn damages(file: &mut File) {
    let deck = write(One, &long_rules());
    file.base(&deck);
    for edition in EDITIONS {
        for bytes in each_answer(faulty_decks(&deck), |b| coded(check(edition, b))) {
            file.call(CHECK, &[edition], &[&bytes]);
        }
    }
    let data = data_bytes(&long_rules()[1].elements[0].data);
    for data in each_answer(faulty_data(&data), |b| value_answer(STUDIO, 0x212, b)) {
        value(file, STUDIO, 0x212, &data);
        edit(file, STUDIO, &deck, 60, &Edit::AddElement { identifier: 0x212, data });
    }
}

/// A last name in the long form, in a deck of 60,000 bytes and in a buffer of just its length: 2 bytes come free.
fn at_the_limits(file: &mut File) {
    let mut rules = rules_of_size(One, 59_998);
    let last = rules.len() - 1;
    rules[last].name.form = Form::Long;
    let (deck, n) = (write(One, &rules), rules[last].name.units.len());
    file.base(&deck);
    file.call(CHECK, &[STUDIO], &[&deck]);
    for name in [n, n + 1, n + 2].map(units) {
        for more in [0, 10] {
            edit(file, DESK, &deck, more, &Edit::Rename { k: last as u64, name: name.clone() });
        }
    }
    let small = write(One, &long_rules());
    for name in [1, 2, 3].map(units) {
        for more in [0, 1, 2] {
            edit(file, STUDIO, &small, more, &Edit::Rename { k: 0, name: name.clone() });
        }
    }
    for more in [47, 48, 49, 50] {
        edit(file, STUDIO, &small, more, &Edit::Insert { k: 3, second: small.clone(), j: 0 });
    }
}

/// Edits in one buffer, each on what the one before it left.
fn run(file: &mut File) {
    let mut buffer = buffered(&[], 900);
    let (_, left) = file.add(Call { call: START, numbers: Vec::new(), bytes: vec![buffer] });
    buffer = left;
    let mut length = 7;
    let second = write(One, &long_rules());
    let data = data_bytes(&long_rules()[1].elements[0].data);
    for what in [
        Edit::Insert { k: 0, second: second.clone(), j: 1 },
        Edit::AddWord { word: units(1) },
        Edit::AddElement { identifier: 0x211, data: data.clone() },
        Edit::AddWord { word: units(0) },
        Edit::Insert { k: 0, second: second.clone(), j: 0 },
        add_rule(units(255), 0x219, data),
        Edit::AddWord { word: units(255) },
        Edit::Switch { k: 1, on: true },
        Edit::Rename { k: 2, name: units(254) },
        Edit::Rename { k: 0, name: units(1) },
        Edit::Insert { k: 3, second, j: 0 },
        Edit::Remove { k: 0 },
        Edit::Rename { k: 0, name: units(0) },
        Edit::Remove { k: 1 },
    ] {
        let (answer, left) = file.add(of_edit(STUDIO, &buffer, length, &what));
        (length, buffer) = (answer / 256, left);
    }
}
