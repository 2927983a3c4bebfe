//! The cases of edits: each edit, given faults, the order of refusals, runs.
use crate::baseline::deck::{check, write, One, Version};
use crate::baseline::edit::Edit;
use crate::baseline::element::{data_bytes, Data, Element};
use crate::baseline::kind::{identifiers, identifiers_of};
use crate::baseline::random::Random;
use crate::baseline::{coded, DESK, STUDIO};
use crate::call::*;
use crate::file::File;
use crate::parts::*;

/// The edits that are tried on a deck of three rules, with second decks of that version.
pub fn plain_edits(edition: u64, version: Version) -> Vec<Edit> {
    let mut edits = Vec::new();
    for k in [0, 1, 2, 3, 4, 256, 1 << 32, MOST] {
        edits.extend([Edit::Switch { k, on: true }, Edit::Switch { k, on: false }, Edit::Remove { k }]);
        for n in [0, 1, 254, 255] {
            edits.push(Edit::Rename { k, name: units(n) });
        }
        for j in [0, 1, 2, MOST] {
            edits.push(Edit::Insert { k, second: write(version, &two_rules(edition)), j });
        }
        edits.push(Edit::Insert { k, second: write(version, &[]), j: 0 });
    }
    for n in [0, 1, 254, 255] {
        edits.extend([simple_rule(units(n)), Edit::AddWord { word: units(n) }]);
    }
    for n in [1, 3, 509, 511, 512, 513, 1000] {
        let name = vec![0x41; n];
        edits.extend([
            Edit::Rename { k: 1, name: name.clone() },
            Edit::AddWord { word: name.clone() },
            simple_rule(name),
        ]);
    }
    for identifier in identifiers() {
        let data = data_bytes(&element(identifier).data);
        edits.extend([add_rule(units(2), identifier, data.clone()), Edit::AddElement { identifier, data }]);
    }
    edits
}

pub fn all_edits() -> File {
    let mut file = File::new("edits");
    for n in [0, 1, 6, 7, 8, 20] {
        file.call(START, &[], &[&buffered(&[], n)]);
    }
    for edition in EDITIONS {
        let deck = write(One, &three_rules(edition));
        file.base(&buffered(&deck, 700));
        for what in plain_edits(edition, One) {
            edit(&mut file, edition, &deck, 700, &what);
        }
    }
    let empty = write(One, &[]);
    for edition in EDITIONS {
        let data = data_bytes(&Data::Simple);
        edit(&mut file, edition, &empty, 90, &simple_rule(units(3)));
        edit(&mut file, edition, &empty, 90, &Edit::AddElement { identifier: 0xC8, data });
        edit(&mut file, edition, &empty, 90, &Edit::AddWord { word: units(1) });
        edit(&mut file, edition, &empty, 90, &Edit::Remove { k: 0 });
        edit(&mut file, edition, &empty, 90, &Edit::Insert { k: 0, second: write(One, &two_rules(edition)), j: 1 });
    }
    file
}

/// Faults in the deck itself, in a second deck and in given data: each answer once for each edition.
pub fn all_given() -> File {
    let mut file = File::new("given");
    for edition in EDITIONS {
        let deck = write(One, &three_rules(edition));
        let second = write(One, &two_rules(edition));
        file.base(&[&deck[..], &second].concat());
        for bytes in each_answer(faulty_decks(&second), |b| coded(check(edition, b))) {
            edit(&mut file, edition, &deck, 200, &Edit::Insert { k: 1, second: bytes, j: 1 });
        }
        for (i, bytes) in each_answer(faulty_decks(&deck), |b| coded(check(edition, b))).iter().enumerate() {
            edit(&mut file, edition, bytes, 30, &plain_edits(edition, One)[7 * i % 90]);
        }
        for Element { identifier, data } in shapes() {
            for data in each_answer(faulty_data(&data_bytes(&data)), |b| value_answer(edition, identifier, b)) {
                edit(&mut file, edition, &deck, 150, &Edit::AddElement { identifier, data: data.clone() });
                edit(&mut file, edition, &deck, 150, &add_rule(units(1), identifier, data));
            }
        }
        for identifier in [0, 0xF0, 0x190, 0x2F5, 0x0100_00F5, 0x21B] {
            let data = data_bytes(&Data::Simple);
            edit(&mut file, edition, &deck, 150, &Edit::AddElement { identifier, data: data.clone() });
            edit(&mut file, edition, &deck, 150, &add_rule(units(1), identifier, data));
        }
    }
    file
}

/// An edit of each sort, sound on `three_rules` but for what a case makes wrong.
pub fn one_of_each(k: u64, second: &[u8], j: u64, name: &[u8], identifier: u32) -> Vec<Edit> {
    let data = data_bytes(&Data::Simple);
    let (name, second) = (name.to_vec(), second.to_vec());
    vec![
        Edit::Switch { k, on: true },
        Edit::Rename { k, name: name.clone() },
        Edit::Remove { k },
        Edit::Insert { k, second, j },
        add_rule(name.clone(), identifier, data.clone()),
        Edit::AddElement { identifier, data },
        Edit::AddWord { word: name },
    ]
}

/// Two faults in one call: the earlier of document 01's order is answered.
pub fn all_orders() -> File {
    let mut file = File::new("orders");
    for edition in EDITIONS {
        let deck = write(One, &three_rules(edition));
        let second = write(One, &two_rules(edition));
        let broken = [&second[..], &[0]].concat();
        let odd = [1, 2, 3];
        file.base(&buffered(&deck, 100));
        let cases: [(u64, &[u8], u64, &[u8], u32); 6] = [
            (0, &second, 0, &[5, 5], 0xC8),
            (9, &broken, 9, &odd, 0xF0),
            (9, &second, 9, &odd, 0x190),
            (1, &second, 9, &odd, 0xC8),
            (1, &broken, 0, &[], 0x2F5),
            (3, &second, 1, &odd, 0x1F5),
        ];
        for (k, second, j, name, identifier) in cases {
            for what in one_of_each(k, second, j, name, identifier) {
                for length in [7, deck.len() - 1, deck.len(), deck.len() + 1, deck.len() + 101] {
                    file.add(of_edit(edition, &buffered(&deck, 100), length as u64, &what));
                }
                file.add(of_edit(edition, &buffered(&deck, 100), MOST, &what));
                file.add(of_edit(3, &buffered(&deck, 100), MOST, &what));
                file.add(of_edit(0, &buffered(&deck, 0), deck.len() as u64, &what));
                file.add(of_edit(edition, &buffered(&deck, 3), deck.len() as u64, &what));
            }
        }
    }
    file
}

/// Runs of edits in one buffer: each vector's buffer is what the one before it left.
pub fn all_runs() -> File {
    let mut file = File::new("runs");
    let mut r = Random::new(2);
    for edition in [DESK, STUDIO, STUDIO] {
        for _ in 0..4 {
            let mut buffer = buffered(&[], 700);
            let mut length = 0;
            let (answer, left) = file.add(Call { call: START, numbers: Vec::new(), bytes: vec![buffer.clone()] });
            if answer % 256 == 0 {
                (length, buffer) = (answer / 256, left);
            }
            for _ in 0..12 {
                let what = random_edit(&mut r, edition, u64::from(buffer[5]));
                let (answer, left) = file.add(of_edit(edition, &buffer, length, &what));
                if answer % 256 == 0 {
                    (length, buffer) = (answer / 256, left);
                }
            }
        }
    }
    file
}

pub fn random_edit(r: &mut Random, edition: u64, rules: u64) -> Edit {
    let k = r.below(rules.max(1) as usize) as u64;
    let identifier = r.pick(&identifiers_of(edition));
    let data = data_bytes(&element(identifier).data);
    let name = units(r.below(5));
    if rules == 0 {
        return add_rule(name, identifier, data);
    }
    match r.below(9) {
        0 => Edit::Switch { k, on: r.once_in(2) },
        1 => Edit::Rename { k, name },
        2 => Edit::Remove { k },
        3 => Edit::Insert { k, second: write(One, &two_rules(edition)), j: k % 2 },
        4 => add_rule(name, identifier, data),
        5 => Edit::AddElement { identifier, data },
        6 if edition == STUDIO => Edit::AddElement { identifier: 0x211, data: vec![0; 4] },
        _ => Edit::AddWord { word: name },
    }
}
