//! Plain Rust against the baseline, on random decks: `plain_agrees` ends where one of its calls answers, fills or leaves
//! another thing. What is compared for speed must do the same work.
mod baseline;
mod plain;

use baseline::deck::check;
use baseline::edit::{edit, Edit};
use baseline::random::{deck, Random};
use baseline::tables::{fill, first_byte, name, word};
use baseline::{coded, DESK};

const DECKS: usize = 20_000;
const ROOM: usize = 600;

fn reads(edition: u64, bytes: &[u8]) {
    assert_eq!(plain::check(edition, bytes), coded(check(edition, bytes)));
    let (mut r, mut e) = ([7; ROOM], [7; ROOM]);
    let (mut r2, mut e2) = (r, e);
    assert_eq!(plain::read(edition, bytes, &mut r, &mut e), coded(fill(edition, bytes, &mut r2, &mut e2)));
    assert_eq!((r, e), (r2, e2));
}

fn edits(edition: u64, buffer: &[u8], length: u64, what: &Edit) {
    let (mut left, mut wanted) = (buffer.to_vec(), buffer.to_vec());
    let answer = match what {
        Edit::Switch { k, on } => plain::edit::switch(edition, &mut left, length, *k, *on),
        Edit::Remove { k } => plain::edit::remove(edition, &mut left, length, *k),
        Edit::Insert { k, second, j } => plain::edit::insert(edition, &mut left, length, *k, second, *j),
        other => panic!("not in plain Rust: {other:?}"),
    };
    assert_eq!(answer, coded(edit(edition, &mut wanted, length, what)), "{what:?}");
    assert_eq!(left, wanted, "{what:?}");
}

fn main() {
    let mut r = Random::new(5);
    for _ in 0..DECKS {
        let edition = DESK + r.below(3) as u64;
        let (bytes, second) = (deck(&mut r, edition), deck(&mut r, edition));
        reads(edition, &bytes);
        let [k, j, e, w] = [4, 3, 3, 3].map(|n| r.below(n) as u64);
        assert_eq!(plain::name(edition, &bytes, k), coded(first_byte(name(edition, &bytes, k))));
        assert_eq!(plain::word(edition, &bytes, k, e, w), coded(first_byte(word(edition, &bytes, k, e, w))));
        let buffer = [&bytes[..], &r.bytes(400)].concat();
        let on = r.once_in(2);
        for what in [Edit::Switch { k, on }, Edit::Remove { k }, Edit::Insert { k, second, j }] {
            edits(edition, &buffer, bytes.len() as u64, &what);
        }
    }
    println!("{DECKS} random decks");
}
