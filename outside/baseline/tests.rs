//! The baseline held against document 01's own examples, and against itself by another way.
use super::date::{accepted, civil, Civil};
use super::deck::{check, read, write, Fixed, One, Rule, Version};
use super::edit::{edit, edited, Edit};
use super::element::{data_bytes, given_element, Data, Element};
use super::kind::{alone, identifiers, identifiers_of, row, Kind};
use super::lister::list;
use super::random::{self, Random};
use super::results;
use super::tables::{fill, fixed, name, part, word, ELEMENT_WIDTH, RULE_WIDTH};
use super::text::{bytes_of, write_string, Form, Text};
use super::value::{put_value, value_of, Value};
use super::{coded, refuse, Answer, DESK, STUDIO};

/// "One deck whole", byte by byte as the page has it.
pub fn one_deck() -> Vec<u8> {
    let mut deck = vec![0x52, 0x44, 0x4B, 0x01, 0x00, 0x01, 0x00, 0, 0, 0, 0, 0x01, 0x41, 0x00, 0x01, 0, 0, 0];
    deck.extend([0; 16]);
    deck.extend([0x20, 0, 0, 0, 0x01, 0x00, 0xFF, 0xFF, 0x00, 0x00, 0x0C, 0x00]);
    deck.extend([0x43, 0x52, 0x75, 0x6C, 0x65, 0x45, 0x6C, 0x65, 0x6D, 0x65, 0x6E, 0x74]);
    deck.extend([0xF5, 0x01, 0, 0, 1, 0, 0, 0, 0, 0, 0, 0]);
    deck
}

#[test]
fn document_deck() {
    let deck = one_deck();
    assert_eq!(deck.len(), 70);
    assert_eq!(check(STUDIO, &deck), Ok(1));
    assert_eq!(check(DESK, &deck), refuse(10, 58));
    assert_eq!(coded(check(DESK, &deck)), 10 + 256 * 58);
    assert_eq!(check(0, &deck), refuse(1, 0));
    assert_eq!(check(STUDIO, &[]), refuse(3, 0));
    for edition in [DESK, STUDIO] {
        assert_eq!(check(edition, &[0x52, 0x44, 0x4B, 1, 0, 0, 0]), Ok(0));
    }
    assert_eq!(list(&deck), "DECK 1 70\nRULE 0 ON 1 1\nELEM 0 000001F5 8\nEND 1 1\n");
    assert_eq!(list(&deck[..69]), "REFUSED 3 66\n");
    let (mut rules, mut elements) = ([7; 6], [7; 6]);
    assert_eq!(fill(STUDIO, &deck, &mut rules, &mut elements), Ok(1));
    assert_eq!(rules, [7, 70, 12, 1, 14, 7]);
    assert_eq!(elements, [0x1F5, 0, 62, 70, 7, 7]);
    assert_eq!(fill(STUDIO, &deck, &mut rules[..4], &mut []), refuse(14, 0));
    assert_eq!(fill(STUDIO, &deck, &mut rules[..5], &mut elements[..3]), refuse(14, 1));
    assert_eq!(part(&deck, name(STUDIO, &deck, 0)), [0x41, 0]);
    assert_eq!(name(STUDIO, &deck, 1), refuse(16, 0));
    assert_eq!(word(STUDIO, &deck, 0, 1, 0), refuse(16, 1));
    assert_eq!(word(STUDIO, &deck, 0, 0, 0), refuse(16, 2));
    assert!(fixed(STUDIO, &deck, 0).map_or(false, |f| f.on && f.signature == 0));
}

/// A deck whose second rule is this one, and the last number of that rule's row.
fn second_of_two(rule: Rule) -> (Vec<u8>, usize) {
    let deck = write(One, &[random::small_rule(0xC8, vec![0x41]), rule]);
    let (mut rules, mut elements) = ([7; 2 * RULE_WIDTH], [7; 2 * ELEMENT_WIDTH]);
    assert_eq!(fill(DESK, &deck, &mut rules, &mut elements), Ok(2));
    assert_eq!(fill(DESK, &deck, &mut rules[..2 * RULE_WIDTH - 1], &mut []), refuse(14, 0));
    (deck, rules[2 * RULE_WIDTH - 1] as usize)
}

#[test]
fn enabled_in_the_row() {
    for (name, length) in texts() {
        for on in [false, true] {
            let fixed = Fixed { signature: u32::MAX, on, unknown: [u32::MAX; 4] };
            let rule = Rule { fixed, name: name.clone(), ..random::small_rule(0xC8, vec![]) };
            let (deck, at) = second_of_two(rule);
            assert_eq!(at, 70 + 4 + length + 2 * name.units.len());
            assert_eq!(deck[at..at + 4], u32::from(on).to_le_bytes());
        }
    }
}

/// Strings of each form with few units and with many, and how many bytes their length takes.
fn texts() -> Vec<(Text, usize)> {
    let short = [0, 1, 254].map(|n| (Text { form: Form::Short, units: vec![0xFFFF; n] }, 1));
    let long = [0, 1, 254, 255].map(|n| (Text { form: Form::Long, units: vec![0xFFFF; n] }, 3));
    short.into_iter().chain(long).collect()
}

/// A deck of one rule, whose name is these bytes.
fn named(string: &[u8]) -> Vec<u8> {
    [&one_deck()[..11], string, &one_deck()[14..]].concat()
}

#[test]
fn both_forms_are_read() {
    for (text, length) in texts() {
        let mut string = Vec::new();
        write_string(&mut string, &text);
        let n = text.units.len();
        let says = if length == 3 { vec![0xFF, n as u8, 0] } else { vec![n as u8] };
        assert_eq!(string, [says, vec![0xFF; 2 * n]].concat());
        let deck = named(&string);
        let rules = read(STUDIO, &deck).unwrap().rules;
        assert_eq!((&rules[0].name, write(One, &rules)), (&text, deck));
        let data = [&[1, 0, 0, 0, 0, 0, 0, 0], &string[..]].concat();
        let element = given_element(STUDIO, 0x211, &data).unwrap();
        assert_eq!((data_bytes(&element.data), element.data), (data, Data::Words(vec![text])));
    }
}

#[test]
fn more_than_255_units() {
    for (length, units, number) in [
        ([0xFF, 0x00, 0x01], 256, 7),
        ([0xFF, 0x00, 0x01], 0, 7), // before a cut of its units
        ([0xFF, 0xFF, 0xFF], 300, 7),
        ([0xFF, 0xFF, 0x00], 254, 3),
    ] {
        let string = [&length[..], &vec![0; 2 * units]].concat();
        let deck = [&one_deck()[..11], &string].concat();
        assert_eq!(check(STUDIO, &deck), refuse(number, 11));
        let data = [&[1, 0, 0, 0, 0, 0, 0, 0], &string[..]].concat();
        assert_eq!(value_of(STUDIO, 0x211, &data), refuse(32 + number, 8));
    }
    for cut in [&[][..], &[0xFF], &[0xFF, 0]] {
        assert_eq!(check(STUDIO, &[&one_deck()[..11], cut].concat()), refuse(3, 11));
    }
}

/// The length that an edit answers, and the bytes that it leaves up to the longer of the two decks.
pub fn edited_deck(deck: &[u8], what: &Edit) -> (u64, Vec<u8>) {
    let mut buffer = [deck, &[0xA5; 600]].concat();
    let length = edit(STUDIO, &mut buffer, deck.len() as u64, what).unwrap();
    let most = deck.len().max(length as usize);
    assert!(buffer[most..].iter().all(|&byte| byte == 0xA5));
    buffer.truncate(most);
    (length, buffer)
}

#[test]
fn a_rename_takes_the_shortest_form() {
    let long = named(&[0xFF, 1, 0, 0x41, 0]);
    let (length, left) = edited_deck(&long, &Edit::Rename { k: 0, name: vec![0x41, 0] });
    assert_eq!((length, left), (70, [&one_deck()[..], &[0, 0]].concat()));
    for (text, _) in texts() {
        let (_, left) = edited_deck(&long, &Edit::Rename { k: 0, name: bytes_of(&text.units) });
        let short = left[11] < 0xFF;
        assert_eq!(short, text.units.len() < 255);
    }
    assert_eq!(edited_deck(&long, &Edit::Switch { k: 0, on: false }).1[..16], long[..16]);
}

/// A rule whose Strings all have the long form: its name and two words.
pub fn long_rule() -> Rule {
    let words = vec![Text::long(vec![]), Text::long(vec![0x42])];
    let list = Element { identifier: 0x213, data: Data::Words(words) };
    Rule { name: Text::long(vec![0x41]), elements: vec![list], ..random::small_rule(0xC8, vec![]) }
}

#[test]
fn an_inserted_rule_keeps_its_forms() {
    let second = write(One, &[long_rule()]);
    let (_, left) = edited_deck(&one_deck(), &Edit::Insert { k: 1, second, j: 0 });
    let rules = read(STUDIO, &left).unwrap().rules;
    assert_eq!(rules[1], long_rule());
    assert_eq!(left[70 + 4..70 + 9], [0xFF, 1, 0, 0x41, 0]);
}

#[test]
fn an_added_word_leaves_those_before_it() {
    let deck = write(One, &[long_rule()]);
    let (_, left) = edited_deck(&deck, &Edit::AddWord { word: vec![0x43, 0] });
    let words = deck.len() - 16; // 4 zero bytes each, of the first 3 bytes and of the second 5
    assert_eq!(left[words - 4..words], [3, 0, 0, 0]);
    assert_eq!(left[words..deck.len()], deck[words..]);
    assert_eq!(left[deck.len()..], [0, 0, 0, 0, 1, 0x43, 0]);
}

#[test]
fn given_data_keeps_its_forms() {
    let data = data_bytes(&long_rule().elements[0].data);
    assert_eq!(data, [2, 0, 0, 0, 0, 0, 0, 0, 0xFF, 0, 0, 0, 0, 0, 0, 0xFF, 1, 0, 0x42, 0]);
    let (name, fixed) = (vec![0x41, 0], long_rule().fixed);
    let add = Edit::AddRule { name, fixed, identifier: 0x213, data: data.clone() };
    let (_, left) = edited_deck(&write(One, &[]), &add);
    assert!(left.ends_with(&data));
    assert_eq!(left[11..14], [1, 0x41, 0]);
    let deck = write(One, &[long_rule()]);
    let (_, left) = edited_deck(&deck, &Edit::AddElement { identifier: 0x213, data: data.clone() });
    assert!(left.ends_with(&data));
    assert_eq!(left[11..16], deck[11..16]);
}

#[test]
fn document_identifiers() {
    assert_eq!(identifiers().len(), 35);
    assert_eq!(identifiers_of(DESK).len(), 17);
    assert_eq!(identifiers_of(STUDIO).len(), 35);
    assert!(identifiers().iter().all(|&i| row(i).is_some()));
    assert_eq!((0..0x1000).filter(|&i| row(i).is_some()).count(), 35);
    assert_eq!(alone(DESK, 0xF5), Ok(Kind::SimpleCondition));
    for wrong in [0x2F5, 0x0100_00F5, 0xF0, 0x190] {
        assert_eq!(alone(STUDIO, wrong), refuse(9, 0));
    }
    assert_eq!(alone(DESK, 0x1F5), refuse(10, 0));
    assert_eq!(alone(3, 0x1F5), refuse(1, 0));
}

fn moment(date: f64) -> Answer<(u64, u64, u64, u64)> {
    civil(date.to_bits()).map(|Civil { year, month, day, second }| (year, month, day, second))
}

#[test]
fn document_dates() {
    assert_eq!(moment(2.0), Ok((1900, 1, 1, 0)));
    assert_eq!(moment(2.5), Ok((1900, 1, 1, 43_200)));
    assert_eq!(moment(-1.25), Ok((1899, 12, 29, 21_600)));
    assert_eq!(moment(-0.25), Ok((1899, 12, 30, 21_600)));
    assert_eq!(moment(-0.0), Ok((1899, 12, 30, 0)));
    assert_eq!(moment(-657_434.0), Ok((100, 1, 1, 0)));
    assert_eq!(moment(2_958_465.5), Ok((9999, 12, 31, 43_200)));
    assert_eq!(moment(36_526.0), Ok((2000, 1, 1, 0)));
    assert_eq!(moment(61.0), Ok((1900, 3, 1, 0)));
    for wrong in [-657_435.0, 2_958_466.0, f64::INFINITY, f64::NEG_INFINITY, f64::NAN] {
        assert_eq!(moment(wrong), refuse(11, 0));
    }
}

/// The float way to the same numbers: exact for these, as a product with 86,400 is compared and not trusted.
#[test]
fn dates_by_floats() {
    let mut r = Random::new(11);
    for _ in 0..200_000 {
        let bits = if r.once_in(2) { random::good_date(&mut r) } else { random::any_date(&mut r) };
        let date = f64::from_bits(bits);
        assert_eq!(accepted(bits), date > -657_435.0 && date < 2_958_466.0, "{bits:x}");
        if let Ok(moment) = civil(bits) {
            let fraction = date.abs().fract();
            let second = (fraction * 86_400.0).floor();
            assert!((second - moment.second as f64).abs() <= 1.0, "{bits:x}");
            assert_eq!(day_number(&moment), date.trunc() as i64, "{bits:x}");
            assert!((1..=12).contains(&moment.month) && (1..=31).contains(&moment.day));
        }
    }
}

/// Days from 30 December 1899, by the count of leap years before a year: another way than walking.
fn day_number(c: &Civil) -> i64 {
    let before = c.year as i64 - 1;
    let leap = (c.year % 4 == 0 && c.year % 100 != 0) || c.year % 400 == 0;
    let months = [0, 31, 59, 90, 120, 151, 181, 212, 243, 273, 304, 334];
    let in_year = months[c.month as usize - 1] + i64::from(leap && c.month > 2) + c.day as i64;
    365 * before + before / 4 - before / 100 + before / 400 + in_year - 693_594
}

#[test]
fn values() {
    let mut r = Random::new(12);
    for _ in 0..20_000 {
        let element = random::element(&mut r, STUDIO);
        let data = data_bytes(&element.data);
        let value = value_of(STUDIO, element.identifier, &data).unwrap();
        let mut buffer = [0xA5; 50];
        let put = put_value(STUDIO, element.identifier, &value, &mut buffer);
        if let Value::Words(_) = value {
            assert_eq!(put, refuse(40, 0));
        } else {
            assert_eq!(put, Ok(data.len() as u64));
            assert_eq!(buffer[..data.len()], data);
            assert!(buffer[data.len()..].iter().all(|&b| b == 0xA5));
            assert_eq!(put_value(STUDIO, element.identifier, &value, &mut buffer[..data.len() - 1]), refuse(20, 0));
        }
        let (answer, table) = lent::<u64, 5>(|table| results::value(STUDIO, element.identifier, &data, table));
        assert_eq!((answer, results::value_from(&table)), (Ok(0), Some(value)));
        let longer = [&data[..], &[0]].concat();
        assert_eq!(value_of(STUDIO, element.identifier, &longer), refuse(45, data.len() as u64));
    }
}

/// A call on a table of sevens: its answer, and the table after it.
pub fn lent<T: Copy + From<u8>, const N: usize>(call: impl FnOnce(&mut [T]) -> Answer<u64>) -> (Answer<u64>, [T; N]) {
    let mut table = [T::from(7); N];
    (call(&mut table), table)
}

#[test]
fn kinds_as_numbers() {
    let kind = |identifier| lent(|table| results::kind(STUDIO, identifier, table));
    assert_eq!(lent(|table| results::kind(DESK, 0xF5, table)), (Ok(0), [1, 1]));
    assert_eq!(kind(0x64), (Ok(0), [0, 0, 7]));
    assert_eq!(kind(0x12D), (Ok(0), [2, 2, 7]));
    assert_eq!(kind(0x1F5), (Ok(0), [3, 3, 7]));
    assert_eq!(kind(0x211), (Ok(0), [4, 3, 7]));
    assert_eq!([kind(0xE0), kind(0x20C)], [(Ok(0), [5, 1, 7]), (Ok(0), [5, 3, 7])]);
    assert_eq!([kind(0xE1), kind(0x20D)], [(Ok(0), [6, 1, 7]), (Ok(0), [6, 3, 7])]);
    assert_eq!(lent(|table| results::kind(DESK, 0xF5, table)), (refuse(14, 0), [7]));
    assert_eq!(lent(|table| results::kind(DESK, 0x1F5, table)), (refuse(10, 0), [7]));
    assert_eq!(lent(|table| results::kind(STUDIO, 0x0100_00F5, table)), (refuse(9, 0), [7]));
    assert_eq!(lent(|table| results::kind(3, 0xF5, table)), (refuse(1, 0), [7]));
}

#[test]
fn parts_and_fields() {
    let deck = one_deck();
    assert_eq!(lent(|table| results::fields(STUDIO, &deck, 0, table)), (Ok(0), [0, 1, 0, 0, 0, 0, 7]));
    assert_eq!(lent(|table| results::fields(STUDIO, &deck, 0, table)), (refuse(14, 0), [7; 5]));
    assert_eq!(lent(|table| results::fields(STUDIO, &deck, 1, table)), (refuse(16, 0), [7; 5]));
    assert_eq!(lent(|table| results::fields(DESK, &deck, 1, table)), (refuse(10, 58), [7; 6]));
    assert_eq!(lent(|table| results::name_part(STUDIO, &deck, 0, table)), (Ok(0), [12, 2, 0, 7]));
    assert_eq!(lent(|table| results::name_part(STUDIO, &deck, 0, table)), (refuse(14, 0), [7; 2]));
    assert_eq!(lent(|table| results::word_part(STUDIO, &deck, [0, 0, 0], table)), (refuse(16, 2), [7; 2]));
    let words = [vec![], vec![0xD800; 254], vec![0; 255]].map(Text::shortest).to_vec();
    let list = Element { identifier: 0x212, data: Data::Words(words) };
    let fixed = random::small_rule(0xC8, vec![]).fixed;
    let deck = write(
        One,
        &[
            Rule { fixed, name: Text::shortest(vec![1; 254]), elements: vec![list] },
            random::small_rule(0xC8, vec![2; 255]),
        ],
    );
    let word = |w| lent(|table| results::word_part(STUDIO, &deck, [0, 0, w], table));
    let start = 12 + 508 + 4 + 16 + 4 + 2 + 18 + 4; // the fields from the name to the list's data
    assert_eq!(lent(|table| results::name_part(STUDIO, &deck, 0, table)), (Ok(0), [12, 508, 0]));
    assert_eq!(word(0), (Ok(0), [start + 9, 0, 0]));
    assert_eq!(word(1), (Ok(0), [start + 14, 508, 0]));
    assert_eq!(word(2), (Ok(0), [start + 529, 510, 1]));
    assert_eq!(word(3), (refuse(16, 2), [7; 3]));
    let second = start + 529 + 510;
    assert_eq!(lent(|table| results::name_part(STUDIO, &deck, 1, table)), (Ok(0), [second + 7, 510, 1]));
}

#[test]
fn a_part_has_the_form_that_is_there() {
    let deck = write(One, &[long_rule()]);
    assert_eq!(lent(|table| results::name_part(STUDIO, &deck, 0, table)), (Ok(0), [14, 2, 1, 7]));
    let word = |w| lent(|table| results::word_part(STUDIO, &deck, [0, 0, w], table));
    let start = 16 + 4 + 16 + 4 + 2 + 18 + 4; // the fields from the name to the list's data
    assert_eq!(word(0), (Ok(0), [start + 11, 0, 1]));
    assert_eq!(word(1), (Ok(0), [start + 18, 2, 1]));
    assert_eq!(name(STUDIO, &deck, 0).map(|view| view.first), Ok(14));
    assert_eq!(list(&deck), format!("DECK 1 {}\nRULE 0 ON 1 1\nELEM 0 00000213 20\nEND 1 1\n", deck.len()));
}

#[test]
fn moments_as_numbers() {
    let moment = |date: f64| lent(|table| results::moment(date.to_bits(), table));
    assert_eq!(moment(2.5), (Ok(0), [1900, 1, 1, 43_200, 7]));
    assert_eq!(moment(-1.25), (Ok(0), [1899, 12, 29, 21_600, 7]));
    assert_eq!(moment(2_958_466.0), (refuse(11, 0), [7; 5]));
    assert_eq!(lent(|table| results::moment(2.5f64.to_bits(), table)), (refuse(14, 0), [7; 3]));
    assert_eq!(lent(|table| results::moment(f64::NAN.to_bits(), table)), (refuse(11, 0), [7; 3]));
}

/// The data of an element of dates: after noon on 1 January 1900, and a date that does not count.
fn dates_data() -> Vec<u8> {
    let dates = [2.5f64, -0.0].map(|date| date.to_bits().to_le_bytes());
    let words = [1u32, 0, 1, 0, 0, 0].map(|n| n.to_le_bytes());
    [&words[..4].concat()[..], &dates[0], &words[4..].concat(), &dates[1]].concat()
}

#[test]
fn values_as_numbers() {
    let (after, before) = (2.5f64.to_bits(), 1 << 63);
    let dates = dates_data();
    assert_eq!(lent(|table| results::value(STUDIO, 0xE1, &dates, table)), (Ok(0), [3, 1, 0, after, before, 7]));
    assert_eq!(lent(|table| results::value(STUDIO, 0xE1, &dates, table)), (refuse(14, 0), [7; 4]));
    assert_eq!(lent(|table| results::value(STUDIO, 0xE1, &dates[1..], table)), (refuse(40, 0), [7; 4]));
    assert_eq!(lent(|table| results::value(DESK, 0xE1, &dates, table)), (refuse(42, 0), [7; 5]));
    assert_eq!(lent(|table| results::value(0, 0xE1, &dates, table)), (refuse(1, 0), [7; 5]));
    let simple = [1, 0, 0, 0, 0, 0, 0, 0];
    assert_eq!(lent(|table| results::value(DESK, 0xF5, &simple, table)), (Ok(0), [1, 0xF5, 7, 7, 7]));
    assert_eq!(lent(|table| results::value(STUDIO, 0x211, &[0; 4], table)), (Ok(0), [4, 0, 7, 7, 7]));
    let size = [&simple[..], &[3, 0, 0, 0], &[0xFF; 4]].concat();
    assert_eq!(lent(|table| results::value(STUDIO, 0x20C, &size, table)), (Ok(0), [2, 3, 0xFFFF_FFFF, 7, 7]));
    let marker = [1, 0, 0, 0, 0, 0, 0, 0, 1, 0, 0, 0];
    assert_eq!(lent(|table| results::value(DESK, 0x64, &marker, table)), (Ok(0), [0, 7, 7, 7, 7]));
}

#[test]
fn numbers_as_data() {
    let put = |identifier, table: &[u64]| {
        let mut buffer = [0xA5; 41];
        let answer = results::put_value(STUDIO, identifier, table, &mut buffer);
        let written = buffer.iter().rposition(|&byte| byte != 0xA5).map_or(0, |last| last + 1);
        (answer, buffer[..written].to_vec())
    };
    let none = |number, place| (refuse(number, place), Vec::new());
    let (after, before) = (2.5f64.to_bits(), 1 << 63);
    assert_eq!(put(0xE1, &[3, 1, 0, after, before]), (Ok(40), dates_data()));
    assert_eq!(put(0xF5, &[1, 0xF5, 9, u64::MAX, 9, 9, 9]), (Ok(8), vec![1, 0, 0, 0, 0, 0, 0, 0]));
    for table in
        [&[3, 2, 0, after, before], &[3, 1, 1 << 32, after, before], &[5, 1, 0, after, before], &[4, 0, 0, 0, 0]]
    {
        assert_eq!(put(0xE1, table), none(40, 0));
    }
    assert_eq!(put(0xE1, &[3, 1, 0, after]), none(40, 0));
    assert_eq!(put(0xF5, &[1, 0xF5 + (1 << 32), 0, 0, 0]), none(40, 0));
    assert_eq!(put(0xE0, &[2, 1, 1 << 32, 0, 0]), none(40, 0));
    assert_eq!(put(0x211, &[4, 0, 0, 0, 0]), none(40, 0));
    assert_eq!(put(0x2F5, &[]), none(41, 0));
    assert_eq!(put(0xE1, &[3, 0, 0, f64::NAN.to_bits(), f64::NAN.to_bits()]), none(43, 16));
    assert_eq!(put(0xE1, &[3, 0, 0, after, 2_958_466f64.to_bits()]), none(43, 32));
    assert_eq!(results::put_value(DESK, 0xE1, &[], &mut []), refuse(42, 0));
    assert_eq!(results::put_value(STUDIO, 0xE1, &[], &mut []), refuse(40, 0));
    assert_eq!(results::put_value(3, 0xE1, &[], &mut []), refuse(1, 0));
    assert_eq!(results::put_value(DESK, 0xF5, &[1, 0xF5, 0, 0, 0], &mut [0; 7]), refuse(20, 0));
}

fn sizes_fit(version: Version, rules: &[Rule], bytes: &[u8]) {
    let deck = read(STUDIO, bytes).unwrap();
    assert_eq!((deck.version, &deck.rules[..]), (version, rules));
    let index = version.index(rules.len());
    for (k, place) in deck.places.iter().enumerate() {
        assert_eq!(index + write(One, &rules[..=k]).len(), place.end);
        assert_eq!(index + write(One, &rules[..k]).len(), place.start);
        for (element, at) in rules[k].elements.iter().zip(&place.elements) {
            assert_eq!(data_bytes(&element.data), &bytes[at.start..at.end]);
            assert_eq!(matches!(element.data, Data::Words(_)), row(element.identifier) == Some(Kind::WordList));
        }
    }
}

#[test]
fn decks_round() {
    let mut r = Random::new(13);
    for _ in 0..5_000 {
        let (version, rules) = (random::version(&mut r), random::rules(&mut r, STUDIO));
        let mut bytes = write(version, &rules);
        sizes_fit(version, &rules, &bytes);
        random::damage(&mut r, &mut bytes);
        if let Ok(deck) = read(STUDIO, &bytes) {
            assert_eq!(write(deck.version, &deck.rules), bytes);
        }
    }
    for size in [14_000, 59_999, 60_000, 60_001, 60_002] {
        for version in Version::ALL {
            assert_eq!(write(version, &random::rules_of_size(version, size)).len(), size);
        }
    }
}

fn random_edit(r: &mut Random, rules: &[Rule]) -> Edit {
    let k = r.below(rules.len() + 1) as u64;
    let name = bytes_of(&random::units(r));
    let element = random::element(r, STUDIO);
    let data = data_bytes(&element.data);
    match r.below(7) {
        0 => Edit::Switch { k, on: r.once_in(2) },
        1 => Edit::Rename { k, name },
        2 => Edit::Remove { k },
        3 => Edit::Insert { k, second: write(random::version(r), &random::rules(r, STUDIO)), j: r.below(3) as u64 },
        4 => Edit::AddRule { name, fixed: random::fixed(r), identifier: element.identifier, data },
        5 => Edit::AddElement { identifier: element.identifier, data },
        _ => Edit::AddWord { word: name },
    }
}

#[test]
fn edits_read_back() {
    let mut r = Random::new(14);
    for _ in 0..300 {
        let mut buffer = r.bytes(9_000);
        let version = random::version(&mut r);
        buffer[..7].copy_from_slice(&write(version, &[]));
        let (mut length, mut rules) = (7, Vec::new());
        for _ in 0..40 {
            let wanted = random_edit(&mut r, &rules);
            let before = buffer.clone();
            let answer = edit(STUDIO, &mut buffer, length, &wanted);
            let list = edited(STUDIO, rules.clone(), &wanted);
            match answer {
                Err(_) => assert_eq!(buffer, before),
                Ok(new) => {
                    rules = list.unwrap();
                    assert_eq!(buffer[..new as usize], write(version, &rules));
                    sizes_fit(version, &rules, &buffer[..new as usize]);
                    let most = new.max(length) as usize;
                    assert_eq!(buffer[most..], before[most..]);
                    assert!(buffer[new as usize..most].iter().all(|&b| b == 0));
                    length = new;
                }
            }
        }
    }
}

#[test]
fn first_rule_taken_out() {
    let rules = vec![random::small_rule(0xC8, vec![1]), random::small_rule(0xC9, vec![2])];
    let mut buffer = write(One, &rules);
    let old = buffer.len();
    assert_eq!(edit(DESK, &mut buffer, old as u64, &Edit::Remove { k: 0 }), Ok(70));
    assert_eq!(buffer[..70], write(One, &rules[1..]));
    assert_eq!(buffer[70..], [0; 47]);
    assert_eq!(buffer[34..38], [0x20, 0, 0, 0]);
}
