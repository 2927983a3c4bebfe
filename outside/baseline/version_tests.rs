//! Worked cases of the two versions: the index, 29 and its order, edits of both, conversions there and back.
use super::convert::convert;
use super::deck::{check, read, write, One, Rule, Two, Version};
use super::edit::{edit, start, Edit};
use super::lister::list;
use super::random::{self, small_rule, Random};
use super::results;
use super::tables::{fill, fixed, name, part, word};
use super::tests::{edited_deck, lent, long_rule, one_deck};
use super::{refuse, DESK, STUDIO};

/// "One deck whole" in version 2: 4 bytes more, the place where its rule starts.
fn one_deck_2() -> Vec<u8> {
    let mut deck = vec![0x52, 0x44, 0x4B, 0x02, 0x00, 0x01, 0x00, 0x0B, 0, 0, 0];
    deck.extend([0, 0, 0, 0, 0x01, 0x41, 0x00, 0x01, 0, 0, 0]);
    deck.extend([0; 16]);
    deck.extend([0x20, 0, 0, 0, 0x01, 0x00, 0xFF, 0xFF, 0x00, 0x00, 0x0C, 0x00]);
    deck.extend([0x43, 0x52, 0x75, 0x6C, 0x65, 0x45, 0x6C, 0x65, 0x6D, 0x65, 0x6E, 0x74]);
    deck.extend([0xF5, 0x01, 0, 0, 1, 0, 0, 0, 0, 0, 0, 0]);
    deck
}

/// Three rules, of 63, 47 and 47 bytes: in version 2 they start at 19, 82 and 129, and the deck has 176 bytes.
fn three_rules() -> Vec<Rule> {
    [0xC8, 0xC9, 0xCA].map(|identifier| small_rule(identifier, vec![identifier as u16])).to_vec()
}

/// The deck with other bytes at a place.
fn with(deck: &[u8], at: usize, bytes: &[u8]) -> Vec<u8> {
    [&deck[..at], bytes, &deck[at + bytes.len()..]].concat()
}

#[test]
fn document_deck_in_version_2() {
    let deck = one_deck_2();
    assert_eq!((deck.len(), read(STUDIO, &deck).unwrap().version), (74, Two));
    assert_eq!(write(Two, &read(STUDIO, &one_deck()).unwrap().rules), deck);
    assert_eq!((check(STUDIO, &deck), check(DESK, &deck)), (Ok(1), refuse(10, 62)));
    assert_eq!(list(&deck), "DECK 2 74\nRULE 0 ON 1 1\nELEM 0 000001F5 8\nEND 1 1\n");
    let (mut rules, mut elements) = ([7; 6], [7; 5]);
    assert_eq!(fill(STUDIO, &deck, &mut rules, &mut elements), Ok(1));
    assert_eq!((rules, elements), ([11, 74, 16, 1, 18, 7], [0x1F5, 0, 66, 74, 7]));
    assert_eq!(fill(STUDIO, &deck, &mut rules[..4], &mut []), refuse(14, 0));
    assert_eq!(part(&deck, name(STUDIO, &deck, 0)), [0x41, 0]);
    assert_eq!(lent(|table| results::name_part(STUDIO, &deck, 0, table)), (Ok(0), [16, 2, 0, 7]));
    assert_eq!((name(STUDIO, &deck, 1), word(STUDIO, &deck, 0, 0, 0)), (refuse(16, 0), refuse(16, 2)));
    assert_eq!(fixed(STUDIO, &deck, 0), fixed(STUDIO, &one_deck(), 0));
}

#[test]
fn an_empty_deck_has_no_offsets() {
    for (version, byte) in [(One, 1), (Two, 2)] {
        let deck = [0x52, 0x44, 0x4B, byte, 0, 0, 0];
        assert_eq!((write(version, &[]), check(DESK, &deck)), (deck.to_vec(), Ok(0)));
        assert_eq!(check(DESK, &[&deck[..], &[7, 0, 0, 0]].concat()), refuse(13, 7));
        assert_eq!(list(&deck), format!("DECK {byte} 7\nEND 0 0\n"));
    }
    let mut buffer = [0xA5; 8];
    assert_eq!((start(&mut buffer), buffer[3]), (Ok(7), 1));
}

#[test]
fn other_versions_are_refused() {
    for number in [0, 3, 0x0102, 0x0201, 0x0100, 0xFFFF_u16] {
        let deck = with(&one_deck_2(), 3, &number.to_le_bytes());
        assert_eq!(check(STUDIO, &deck), refuse(5, 3));
        assert_eq!(check(STUDIO, &deck[..5]), refuse(5, 3));
        assert_eq!(check(STUDIO, &with(&deck, 0, b"RDJ")), refuse(4, 0));
    }
    assert_eq!(check(STUDIO, &one_deck_2()[..4]), refuse(3, 3));
    assert_eq!(check(STUDIO, &with(&one_deck_2(), 5, &[1, 1])), refuse(6, 5));
    // in version 1 the offset is a signature, and the name is empty
    assert_eq!(check(STUDIO, &with(&one_deck_2(), 3, &[1])), refuse(8, 12));
}

#[test]
fn offsets_are_fields() {
    let deck = write(Two, &three_rules());
    assert_eq!(deck[7..19], [19, 0, 0, 0, 82, 0, 0, 0, 129, 0, 0, 0]);
    assert_eq!(deck.len(), 176);
    for n in 7..19 {
        assert_eq!(check(DESK, &deck[..n]), refuse(3, 7 + (n as u64 - 7) / 4 * 4));
    }
    let wrong = with(&deck, 7, &[0; 12]); // a cut before any 29
    assert_eq!((check(DESK, &wrong[..18]), check(DESK, &wrong[..19])), (refuse(3, 15), refuse(29, 7)));
}

#[test]
fn an_offset_is_judged_when_its_rule_is_reached() {
    let deck = write(Two, &three_rules());
    for (at, start) in [(7, 19u32), (11, 82), (15, 129)] {
        for says in [0, 7, start - 1, start + 1, start + 4, start ^ 1 << 8, start ^ 1 << 24, u32::MAX] {
            let wrong = with(&deck, at, &says.to_le_bytes());
            assert_eq!(check(DESK, &wrong), refuse(29, at as u64));
            assert_eq!(check(DESK, &with(&wrong, 4, &[1])), refuse(5, 3)); // an earlier field
            assert_eq!(check(DESK, &wrong[..start as usize]), refuse(29, at as u64)); // before its signature, which is cut
            assert_eq!(check(DESK, &[&wrong[..], &[0]].concat()), refuse(29, at as u64));
            // before bytes left over
        }
    }
    let second = with(&deck, 11, &[0]);
    assert_eq!(check(DESK, &with(&second, 15, &[0])), refuse(29, 11)); // the first of two
    assert_eq!(check(DESK, &with(&second, 26, &[2])), refuse(8, 26)); // an earlier rule's Enabled,
    assert_eq!(check(DESK, &with(&second, 46, &[0])), refuse(12, 46)); // and its Data Size
    assert_eq!(check(DESK, &with(&second, 89, &[2])), refuse(29, 11)); // before its own rule's Enabled
    assert_eq!(check(DESK, &deck[..129]), refuse(3, 129)); // the last rule is not there
}

#[test]
fn faults_of_a_second_deck() {
    let deck = write(Two, &three_rules());
    let insert = |second: &[u8], j| {
        let mut buffer = [&one_deck()[..], &[0xA5; 100]].concat();
        let answer = edit(STUDIO, &mut buffer, 70, &Edit::Insert { k: 9, second: second.to_vec(), j });
        assert_eq!(buffer, [&one_deck()[..], &[0xA5; 100]].concat());
        answer
    };
    assert_eq!(insert(&with(&deck, 15, &[0]), 0), refuse(61, 15));
    assert_eq!(insert(&deck[..17], 0), refuse(35, 15));
    assert_eq!(insert(&with(&deck, 3, &[3]), 0), refuse(37, 3));
    assert_eq!(insert(&deck, 9), refuse(16, 0));
    let own = with(&deck, 7, &[0]);
    let what = Edit::Insert { k: 0, second: with(&deck, 15, &[0]), j: 0 };
    assert_eq!(edit(DESK, &mut own.clone(), 176, &what), refuse(29, 7));
    assert_eq!(edit(DESK, &mut own.clone(), 177, &what), refuse(15, 0));
}

#[test]
fn edits_keep_the_version() {
    for version in Version::ALL {
        let rules = three_rules();
        let deck = write(version, &rules);
        let length = |rules: &[Rule]| write(version, rules).len();
        for (what, edited) in [
            (Edit::Remove { k: 1 }, vec![rules[0].clone(), rules[2].clone()]),
            (Edit::Remove { k: 0 }, rules[1..].to_vec()),
            (Edit::Rename { k: 0, name: vec![] }, [&[small_rule(0xC8, vec![])], &rules[1..]].concat()),
            (Edit::Insert { k: 3, second: one_deck(), j: 0 }, [&rules[..], &[small_rule(0x1F5, vec![0x41])]].concat()),
            (
                Edit::Insert { k: 0, second: one_deck_2(), j: 0 },
                [&[small_rule(0x1F5, vec![0x41])], &rules[..]].concat(),
            ),
        ] {
            let zeros = vec![0; deck.len().saturating_sub(length(&edited))];
            let left = [write(version, &edited), zeros].concat();
            assert_eq!(edited_deck(&deck, &what), (length(&edited) as u64, left));
        }
    }
}

/// Where the rules start after each edit: every offset, those before the edited rule too where the index grows.
#[test]
fn the_index_follows() {
    let deck = write(Two, &three_rules());
    let index = |what: &Edit| {
        let (_, left) = edited_deck(&deck, what);
        let places = left[7..].chunks(4).take(usize::from(left[5]));
        places.map(|bytes| u32::from_le_bytes(bytes.try_into().unwrap())).collect::<Vec<_>>()
    };
    let insert = |k| Edit::Insert { k, second: one_deck(), j: 0 };
    assert_eq!(index(&Edit::Switch { k: 1, on: false }), [19, 82, 129]);
    assert_eq!(index(&Edit::Rename { k: 1, name: vec![0; 510] }), [19, 82, 129 + 510]);
    assert_eq!(index(&Edit::Rename { k: 0, name: vec![] }), [19, 80, 127]);
    assert_eq!(index(&Edit::Remove { k: 0 }), [15, 78]);
    assert_eq!(index(&Edit::Remove { k: 1 }), [15, 78]);
    assert_eq!(index(&insert(0)), [23, 86, 133, 180]);
    assert_eq!(index(&insert(2)), [23, 86, 133, 180]);
    assert_eq!(index(&insert(3)), [23, 86, 133, 180]);
    let data = vec![1, 0, 0, 0, 0, 0, 0, 0];
    assert_eq!(index(&Edit::AddElement { identifier: 0xC8, data: data.clone() }), [19, 82, 129]);
    let fixed = three_rules()[0].fixed;
    assert_eq!(index(&Edit::AddRule { name: vec![], fixed, identifier: 0xC8, data }), [23, 86, 133, 180]);
}

#[test]
fn there_and_back() {
    let mut buffer = [0xA5; 80];
    assert_eq!(convert(Two, STUDIO, &one_deck(), &mut buffer), Ok(74));
    assert_eq!((&buffer[..74], &buffer[74..]), (&one_deck_2()[..], &[0xA5; 6][..]));
    assert_eq!(convert(One, STUDIO, &one_deck_2(), &mut buffer), Ok(70));
    assert_eq!((&buffer[..70], &buffer[70..74]), (&one_deck()[..], &[0; 4][..])); // 70 to 73 as they were
    assert_eq!(convert(Two, STUDIO, &one_deck(), &mut buffer[..73]), refuse(20, 0));
    assert_eq!(convert(One, STUDIO, &one_deck_2(), &mut buffer[..69]), refuse(20, 0));
    let mut r = Random::new(15);
    for _ in 0..2_000 {
        let (version, rules) = (random::version(&mut r), random::rules(&mut r, STUDIO));
        let deck = write(version, &rules);
        let (mut other, mut again) = (vec![0xA5; deck.len() + 4 * rules.len()], vec![0xA5; deck.len()]);
        let length = convert(version.other(), STUDIO, &deck, &mut other).unwrap() as usize;
        assert_eq!(other[..length], write(version.other(), &rules));
        assert_eq!(convert(version, STUDIO, &other[..length], &mut again), Ok(deck.len() as u64));
        assert_eq!(again, deck);
    }
}

#[test]
fn a_conversion_takes_one_version() {
    for (to, deck) in [(One, one_deck_2()), (Two, one_deck())] {
        let ask = |deck: &[u8], edition| convert(to, edition, deck, &mut []);
        let mut other = with(&deck, 3, &[to as u8]);
        assert_eq!(ask(&other, STUDIO), refuse(5, 3));
        other.truncate(5);
        assert_eq!(ask(&other, STUDIO), refuse(5, 3)); // before the number of rules, which is cut
        for number in [0, 3, 0x0102, 0x0201_u16] {
            assert_eq!(ask(&with(&deck, 3, &number.to_le_bytes()), STUDIO), refuse(5, 3));
        }
        assert_eq!((ask(&deck, STUDIO), ask(&deck, 3)), (refuse(20, 0), refuse(1, 0)));
        assert_eq!(ask(&deck, DESK), refuse(10, deck.len() as u64 - 12));
        assert_eq!(ask(&[&deck[..], &[0]].concat(), STUDIO), refuse(13, deck.len() as u64));
        assert_eq!(ask(&[0; 60_001], STUDIO), refuse(2, 60_000));
    }
    assert_eq!(convert(One, STUDIO, &with(&one_deck_2(), 7, &[7]), &mut []), refuse(29, 7));
    assert_eq!(convert(Two, STUDIO, &write(Two, &[]), &mut []), refuse(5, 3));
}

#[test]
fn the_offsets_count() {
    for bytes in [59_999, 60_000, 60_001, 60_002] {
        let rules = random::rules_of_size(Two, bytes);
        let (one, two) = (write(One, &rules), write(Two, &rules));
        let fits = bytes <= 60_000;
        assert_eq!(check(DESK, &two).is_ok(), fits);
        assert_eq!(check(DESK, &one), Ok(rules.len() as u64));
        let (mut enough, mut short) = (vec![0; bytes], vec![0; bytes - 1]);
        assert_eq!(convert(Two, DESK, &one, &mut enough), if fits { Ok(bytes as u64) } else { refuse(19, 0) });
        assert_eq!(convert(Two, DESK, &one, &mut short), refuse(if fits { 20 } else { 19 }, 0));
        assert!(!fits || convert(One, DESK, &two, &mut short) == Ok(one.len() as u64));
        let last = rules.len() as u64 - 1;
        let mut buffer = [&write(Two, &rules[..last as usize])[..], &[0; 999]].concat();
        let length = buffer.len() as u64 - 999;
        let added = edit(DESK, &mut buffer, length, &Edit::Insert { k: last, second: one, j: last });
        assert_eq!(added, if fits { Ok(bytes as u64) } else { refuse(19, 0) });
    }
    let most = vec![small_rule(0xC8, vec![]); 256];
    assert_eq!(write(Two, &most).len(), write(One, &most).len() + 1024);
}

#[test]
fn a_word_of_version_2() {
    let deck = write(Two, &[small_rule(0xC8, vec![0x41]), long_rule()]);
    let one = write(One, &[small_rule(0xC8, vec![0x41]), long_rule()]);
    let first = |deck: &[u8]| word(STUDIO, deck, 1, 0, 1).unwrap().first;
    assert_eq!(first(&deck), first(&one) + 8);
    let (_, left) = edited_deck(&deck, &Edit::AddWord { word: vec![0x43, 0] });
    assert_eq!(left[7..15], deck[7..15]);
    assert_eq!(part(&left, word(STUDIO, &left, 1, 0, 2)), [0x43, 0]);
}
