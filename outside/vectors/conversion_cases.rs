//! The cases of conversions: there and back, what they refuse, and runs of edits between them.
use crate::baseline::convert;
use crate::baseline::deck::{write, One, Two, Version};
use crate::baseline::random::{rules_of_size, small_rule, Random};
use crate::baseline::{coded, DESK, STUDIO};
use crate::call::*;
use crate::edit_cases::random_edit;
use crate::file::File;
use crate::parts::*;

pub fn all_conversions() -> File {
    let mut file = File::new("conversions");
    there_and_back(&mut file);
    other_versions(&mut file);
    faults(&mut file);
    long_results(&mut file);
    runs(&mut file);
    file
}

/// Each sample deck from both versions, into buffers about as long as the result; what is left converted again; and to the
/// version that it has, where there would be room.
fn there_and_back(file: &mut File) {
    let mut decks = sample_decks();
    decks.extend([Vec::new(), vec![small_rule(0xC8, Vec::new()); 256]]);
    for rules in decks {
        for version in Version::ALL {
            let (deck, n) = (write(version, &rules), write(version.other(), &rules).len());
            file.base(&[&deck[..], &write(version.other(), &rules)].concat());
            for edition in [0, 1, 3] {
                convert(file, version.other(), edition, &deck, &buffered(&[], n));
            }
            for size in [n, n - 1, 0, n + 20] {
                convert(file, version.other(), STUDIO, &deck, &buffered(&[], size));
            }
            let (_, left) = convert(file, version.other(), STUDIO, &deck, &buffered(&[], n + 4));
            convert(file, version, STUDIO, &left[..n], &left);
            convert(file, version, STUDIO, &deck, &buffered(&[], deck.len()));
        }
    }
}

/// Every other version is 5 at 3, its own result's too: before what else is wrong behind it, and behind 1, 2 and 4.
fn other_versions(file: &mut File) {
    for version in Version::ALL {
        let deck = write(version, &three_rules(DESK));
        file.base(&deck);
        for to in Version::ALL {
            for number in [0, 1, 2, 3, 0x0102, 0x0201, 0xFFFF_u16] {
                let mut other = deck.clone();
                other[3..5].copy_from_slice(&number.to_le_bytes());
                for end in [4, 5, 9, 14, other.len()] {
                    convert(file, to, DESK, &other[..end], &buffered(&[], 60));
                }
                other[0] = 0;
                convert(file, to, DESK, &other, &[]);
                convert(file, to, 0, &other, &[]);
            }
            convert(file, to, STUDIO, &vec![0; 60_001], &[]);
            convert(file, to, STUDIO, &[], &[]);
        }
    }
}

/// Faulty decks, each answer once; into a buffer that is too short, which is judged last.
fn faults(file: &mut File) {
    for version in Version::ALL {
        let to = version.other();
        let deck = write(version, &three_rules(STUDIO));
        file.base(&deck);
        for edition in EDITIONS {
            let answer = |bytes: &[u8]| coded(convert::convert(to, edition, bytes, &mut []));
            for bytes in each_answer(faulty_decks(&deck), answer) {
                convert(file, to, edition, &bytes, &buffered(&[], 9));
            }
        }
    }
}

/// Results of about 60,000 bytes: 19 before 20. To version 1 a result is shorter than its deck.
fn long_results(file: &mut File) {
    for size in [59_999, 60_000, 60_001, 60_002] {
        let rules = rules_of_size(Two, size);
        let deck = write(One, &rules);
        file.base(&write(Two, &rules)[..size.min(60_000)]);
        for room in [0, 59_000, size - 1, size, size + 10] {
            convert(file, Two, DESK, &deck, &vec![0xC7; room]);
        }
        let deck = write(Two, &rules);
        for room in [0, size - 4 * rules.len() - 1, size - 4 * rules.len(), size] {
            convert(file, One, DESK, &deck, &vec![0xC7; room]);
        }
    }
}

/// Runs of edits: a started deck, to version 2, edits, and back; each vector's buffer is what the one before it left.
fn runs(file: &mut File) {
    let mut r = Random::new(16);
    for edition in [DESK, STUDIO, STUDIO] {
        let (_, mut buffer) = file.add(Call { call: START, numbers: Vec::new(), bytes: vec![buffered(&[], 700)] });
        let mut length = 7;
        for to in [Two, One, Two] {
            let deck = buffer[..length].to_vec();
            file.base(&buffer);
            let (answer, left) = convert(file, to, edition, &deck, &buffer);
            (length, buffer) = ((answer / 256) as usize, left);
            for _ in 0..7 {
                let what = random_edit(&mut r, edition, u64::from(buffer[5]));
                let (answer, left) = file.add(of_edit(edition, &buffer, length as u64, &what));
                if answer % 256 == 0 {
                    (length, buffer) = ((answer / 256) as usize, left);
                }
            }
        }
    }
}
