//! The cases at the limits: bytes, rules, elements, words, buffers.
use crate::baseline::deck::{write, One, Rule};
use crate::baseline::edit::Edit;
use crate::baseline::element::{data_bytes, Data};
use crate::baseline::random::{rules_of_size, small_rule};
use crate::baseline::{DESK, STUDIO};
use crate::call::*;
use crate::file::File;
use crate::parts::*;

/// Decks of about 60,000 bytes, as given and as results.
pub fn all_lengths() -> File {
    let mut file = File::new("lengths");
    deck_lengths(&mut file);
    long_results(&mut file);
    file
}

/// Rules, elements and words up to their limits and one more; buffers of just the length, and one less.
pub fn all_counts() -> File {
    let mut file = File::new("counts");
    many_rules(&mut file);
    many_elements(&mut file);
    many_words(&mut file);
    short_buffers(&mut file);
    file
}

fn deck_lengths(file: &mut File) {
    file.base(&write(One, &rules_of_size(One, 60_000)));
    let (r, e) = table_rooms(121, 121); // of the deck of 60,000 bytes
    for edition in [0, 1, 2] {
        for size in [59_999, 60_000, 60_001] {
            let deck = write(One, &rules_of_size(One, size));
            file.call(CHECK, &[edition], &[&deck]);
            name(file, edition, &deck, 119);
            file.call(READ, &[edition, r - 1, e - 1], &[&deck]);
            file.call(READ, &[edition, r + 3, e + 2], &[&deck]);
            edit(file, edition, &deck, 40, &Edit::Switch { k: 119, on: false });
            edit(file, edition, &deck, 0, &Edit::Remove { k: 0 });
            let copy = Edit::Insert { k: 1, second: deck, j: 119 };
            edit(file, edition, &write(One, &two_rules(edition.max(1))), 600, &copy);
        }
        file.call(CHECK, &[edition], &[&vec![0; 60_000]]);
        file.call(CHECK, &[edition], &[&vec![0; 60_001]]);
    }
}

fn near(n: usize) -> [usize; 4] {
    [n - 1, n, n + 1, n + 2]
}

/// Results of 59,998 to 60,004 bytes, in buffers of 59,999 to 60,010.
fn long_results(file: &mut File) {
    let list = Rule { elements: vec![words(&[])], ..small_rule(0xC8, Vec::new()) };
    for end in [0, 1] {
        let mut rules = rules_of_size(One, 59_900 + end);
        let deck = write(One, &rules);
        let gap = 60_000 - deck.len();
        file.base(&deck);
        for n in near((gap - 45) / 2) {
            for edition in EDITIONS {
                for more in [gap - 1, gap, gap + 10] {
                    edit(file, edition, &deck, more, &simple_rule(units(n)));
                }
            }
            let second = write(One, &[small_rule(0xC8, Vec::new()), small_rule(0xCA, vec![9; n])]);
            edit(file, DESK, &deck, gap + 2, &Edit::Insert { k: 5, second: second.clone(), j: 1 });
            edit(file, DESK, &deck, gap, &Edit::Insert { k: 0, second, j: 1 });
        }
        let last = rules.len() as u64 - 1;
        let old = rules[last as usize].name.units.len();
        for n in near(old + gap / 2) {
            edit(file, STUDIO, &deck, gap + 5, &Edit::Rename { k: last, name: units(n) });
            edit(file, STUDIO, &deck, gap, &Edit::Rename { k: last, name: units(n) });
        }
        for n in near((gap - 15) / 2) {
            let data = data_bytes(&words(&[n]).data);
            edit(file, STUDIO, &deck, gap, &Edit::AddElement { identifier: 0x211, data: data.clone() });
            edit(file, STUDIO, &deck, gap + 5, &Edit::AddElement { identifier: 0x211, data });
        }
        rules.push(list.clone());
        let deck = write(One, &rules);
        let gap = 60_000 - deck.len();
        file.base(&deck);
        for n in near((gap - 5) / 2) {
            edit(file, STUDIO, &deck, gap + 5, &Edit::AddWord { word: units(n) });
            edit(file, STUDIO, &deck, gap, &Edit::AddWord { word: units(n) });
        }
    }
}

fn many_rules(file: &mut File) {
    for n in [255, 256] {
        let rules = vec![small_rule(0xC8, Vec::new()); n];
        let deck = write(One, &rules);
        file.base(&deck);
        for edition in EDITIONS {
            file.call(CHECK, &[edition], &[&deck]);
            if n == 256 {
                let (r, e) = table_rooms(n, n);
                let enough = if edition == DESK { (MOST_ROOM, MOST_ROOM) } else { (r, e) };
                for (r, e) in [(r - 1, e), (r, e - 1), (r, 0), (r - n as u64, e), enough] {
                    file.call(READ, &[edition, r, e], &[&deck]);
                }
            }
            name(file, edition, &deck, 255);
            for more in [0, 16, 100] {
                edit(file, edition, &deck, more, &simple_rule(Vec::new()));
                edit(file, edition, &deck, more, &Edit::Insert { k: 0, second: deck.clone(), j: 254 });
                edit(file, edition, &deck, more, &Edit::Insert { k: n as u64, second: deck.clone(), j: 0 });
                edit(file, edition, &deck, more, &Edit::Insert { k: n as u64 + 1, second: deck.clone(), j: 0 });
            }
            edit(file, edition, &deck, 9, &Edit::Remove { k: 255 });
            edit(file, edition, &deck, 9, &Edit::Remove { k: 0 });
        }
    }
    // 18 before 19: 256 rules of nearly 60,000 bytes, and one more
    let mut rules = vec![small_rule(0xC8, vec![6; 94]); 256];
    rules[0].name.units.clear();
    let deck = write(One, &rules);
    file.base(&deck);
    for more in [0, 1000] {
        edit(file, DESK, &deck, more, &simple_rule(units(255)));
        edit(file, DESK, &deck, more, &Edit::Rename { k: 0, name: units(255) });
        edit(file, DESK, &deck, more, &Edit::Rename { k: 1, name: units(255) });
    }
    let mut over = write(One, &[]);
    over[5..7].copy_from_slice(&257u16.to_le_bytes());
    file.call(CHECK, &[DESK], &[&over]);
}

fn many_elements(file: &mut File) {
    for n in [63, 64] {
        for edition in EDITIONS {
            let deck = write(One, &[small_rule(0xC8, vec![1]), rule(2, vec![element(0x12D); n])]);
            file.base(&deck);
            file.call(CHECK, &[edition], &[&deck]);
            let (r, e) = table_rooms(2, n + 1);
            file.call(READ, &[edition, r, e], &[&deck]);
            for (identifier, data) in [(0xC8, data_bytes(&Data::Simple)), (0xF0, Vec::new()), (0xC8, vec![1])] {
                for more in [0, 13, 14, 15] {
                    edit(file, edition, &deck, more, &Edit::AddElement { identifier, data: data.clone() });
                }
            }
        }
    }
    for count in [0, 65, 256] {
        let mut deck = write(One, &[small_rule(0xC8, vec![1])]);
        deck[38..40].copy_from_slice(&(count as u16).to_le_bytes());
        file.call(CHECK, &[DESK], &[&deck]);
        file.call(CHECK, &[STUDIO], &[&deck]);
    }
}

fn many_words(file: &mut File) {
    for n in [0, 63, 64] {
        let deck = write(One, &[rule(3, vec![element(0x20C), words(&vec![0; n])])]);
        file.base(&deck);
        for edition in EDITIONS {
            file.call(CHECK, &[edition], &[&deck]);
            word(file, edition, &deck, [0, 1, 63]);
            for word in [vec![], units(1), units(254), units(255), vec![1], vec![0; 512]] {
                for more in [0, 6, 7, 600] {
                    edit(file, edition, &deck, more, &Edit::AddWord { word: word.clone() });
                }
            }
        }
    }
    let long = write(One, &[rule(0, vec![words(&[255; 64])])]);
    file.call(CHECK, &[STUDIO], &[&long]);
    word(file, STUDIO, &long, [0, 0, 63]);
    edit(file, STUDIO, &long, 3, &Edit::AddWord { word: vec![0] });
}

/// Buffers that end exactly where the result does, or one byte before.
fn short_buffers(file: &mut File) {
    for edition in EDITIONS {
        let deck = write(One, &three_rules(edition));
        file.base(&deck);
        for (what, grows) in [
            (simple_rule(units(2)), 49),
            (Edit::AddElement { identifier: 0xCA, data: data_bytes(&Data::Simple) }, 14),
            (Edit::AddWord { word: units(4) }, 13),
            (Edit::Rename { k: 0, name: units(9) }, 16),
            (Edit::Rename { k: 1, name: units(255) }, 508),
            (Edit::Insert { k: 0, second: write(One, &two_rules(edition)), j: 1 }, 71),
            (Edit::Insert { k: 3, second: write(One, &two_rules(edition)), j: 1 }, 71),
            (Edit::Remove { k: 0 }, 0),
            (Edit::Switch { k: 0, on: false }, 0),
        ] {
            for more in [grows as usize, (grows as usize).max(1) - 1, grows as usize + 1] {
                edit(file, edition, &deck, more, &what);
            }
        }
    }
}
