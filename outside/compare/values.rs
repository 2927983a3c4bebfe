//! Element data turned into a value, a value into data, and there and back.
use crate::baseline::element::data_bytes;
use crate::baseline::kind::{identifiers, row, Kind};
use crate::baseline::random::{any_date, data, given_data, good_date, identifier, Random};
use crate::baseline::results::{self, VALUE};
use crate::baseline::{coded, DESK, STUDIO};
use crate::lent::{as_found, every_size, tables_differ};
use crate::lesser::fewer_bytes;
use crate::results::EDITIONS;
use crate::share::{hex, left_behind, pieces, said, Answers};
use crate::{door, Outcome, Plan};

pub static READ: Answers = Answers::new();
pub static PUT: Answers = Answers::new();

const KINDS: [Kind; 7] = [
    Kind::Marker,
    Kind::SimpleCondition,
    Kind::SimpleAction,
    Kind::SimpleException,
    Kind::WordList,
    Kind::Size,
    Kind::Dates,
];

/// Not among the 35: some that document 01 names, some that share low bits with one that is.
const STRANGERS: [u32; 8] = [0, 0xF0, 0x190, 0x2F5, 0x0100_00F5, 0x1_00F5, 0x8000_0064, u32::MAX];

fn value_differs(edition: u64, identifier: u32, data: &[u8]) -> Option<String> {
    let archive = |table: &mut [u64]| door::value(edition, identifier, data, table);
    let baseline = |table: &mut [u64]| results::value(edition, identifier, data, table);
    tables_differ(&READ, every_size(VALUE), archive, baseline)
}

/// What the archive makes of the data goes back by the archive as the same bytes; a word list is 40 at 0.
fn round_differs(edition: u64, identifier: u32, data: &[u8]) -> Option<String> {
    let mut value = as_found::<u64>();
    if door::value(edition, identifier, data, &mut value[..VALUE]) != 0 {
        return None;
    }
    let found = vec![0xA5; data.len() + 1];
    let (expected, wanted) = match value[0] {
        4 => (40, found.clone()),
        _ => (256 * data.len() as u64, [data, &[0xA5]].concat()),
    };
    let mut buffer = found.clone();
    let answer = door::put_value(edition, identifier, &value[..VALUE], &mut buffer);
    if answer == expected && buffer == wanted {
        return None;
    }
    let call = said(&format!("put back from table {:x?}", &value[..VALUE]), answer, expected);
    Some(call + &left_behind(hex(&found), hex(&buffer), hex(&wanted)))
}

fn data_differs(edition: u64, identifier: u32, data: &[u8]) -> Option<String> {
    value_differs(edition, identifier, data).or_else(|| round_differs(edition, identifier, data))
}

/// One call of `value`, and back; a difference is shown on the fewest bytes found that have one.
fn compare_data(edition: u64, identifier: u32, data: &[u8]) -> Outcome {
    if data_differs(edition, identifier, data).is_none() {
        return Ok(1);
    }
    let least = fewer_bytes(data, |data| data_differs(edition, identifier, data).is_some());
    let what = data_differs(edition, identifier, &least).unwrap_or_default();
    Err(format!("value, edition {edition}, identifier {identifier:08X}, data {}, {what}", hex(&least)))
}

/// Every cut of the data and up to three bytes left over, in every edition; every other value of every byte in the two.
fn damaged(r: &mut Random, identifier: u32, data: &[u8]) -> Outcome {
    let mut cases = 0;
    let longer = [data, &r.bytes(3)].concat();
    for edition in EDITIONS {
        for end in 0..=longer.len() {
            cases += compare_data(edition, identifier, &longer[..end])?;
        }
    }
    let mut other = data.to_vec();
    for at in 0..data.len() {
        for change in 1..=255 {
            other[at] = data[at] ^ change;
            cases += compare_data(DESK, identifier, &other)? + compare_data(STUDIO, identifier, &other)?;
        }
        other[at] = data[at];
    }
    Ok(cases)
}

/// Data of every kind under one identifier, in every edition.
fn of_every_kind(r: &mut Random, identifier: u32) -> Outcome {
    let mut cases = 0;
    for kind in KINDS {
        let data = data_bytes(&data(r, kind));
        for edition in EDITIONS {
            cases += compare_data(edition, identifier, &data)?;
        }
    }
    Ok(cases)
}

/// Data of that kind that is not long: a word list has few words.
fn short_data(r: &mut Random, kind: Kind) -> Vec<u8> {
    loop {
        let bytes = data_bytes(&data(r, kind));
        if bytes.len() <= 60 {
            return bytes;
        }
    }
}

/// One of the two, mostly; else another number.
fn edition(r: &mut Random) -> u64 {
    if r.once_in(12) {
        r.pick(&EDITIONS)
    } else {
        DESK + r.below(2) as u64
    }
}

fn random_data(r: &mut Random) -> Outcome {
    let edition = edition(r);
    let identifier = identifier(r, edition);
    let kind = if r.once_in(20) { r.pick(&KINDS) } else { row(identifier).unwrap_or(Kind::Size) };
    let mut data = given_data(r, kind);
    if r.once_in(40) {
        let n = r.below(80);
        data = r.bytes(n);
    }
    compare_data(edition, identifier, &data)
}

/// The identifiers that are tried one by one.
fn tried() -> Vec<u32> {
    [&identifiers()[..], &STRANGERS].concat()
}

pub fn read(plan: &Plan) -> Outcome {
    let tried = tried();
    let edges = pieces(tried.len(), |i| {
        let mut r = Random::new(plan.seed.wrapping_mul(4001).wrapping_add(i as u64));
        let data = short_data(&mut r, row(tried[i]).unwrap_or(Kind::SimpleAction));
        Ok(damaged(&mut r, tried[i], &data)? + of_every_kind(&mut r, tried[i])?)
    })?;
    Ok(edges + by_chance(plan, 5003, random_data)?)
}

/// As many random cases as the plan has, in pieces.
fn by_chance(plan: &Plan, factor: u64, case: impl Fn(&mut Random) -> Outcome + Sync) -> Outcome {
    pieces(100, |i| {
        let mut r = Random::new(plan.seed.wrapping_mul(factor).wrapping_add(i as u64));
        (0..plan.results / 100).try_fold(0, |cases, _| Ok(cases + case(&mut r)?))
    })
}

const MOST_BYTES: usize = 64;

/// A table put into a buffer of that many bytes, on both sides; a guard follows.
fn put_differs(edition: u64, identifier: u32, table: &[u64], size: usize) -> Option<String> {
    let found: [u8; MOST_BYTES] = std::array::from_fn(|i| (i * 167 + 13) as u8);
    let (mut left, mut wanted) = (found, found);
    let answer = door::put_value(edition, identifier, table, &mut left[..size]);
    let expected = coded(results::put_value(edition, identifier, table, &mut wanted[..size]));
    if answer == expected && left == wanted {
        PUT.count(expected);
        return None;
    }
    let call = format!("put_value, edition {edition}, identifier {identifier:08X}, table {table:x?}, buffer of {size}");
    Some(said(&call, answer, expected) + &left_behind(hex(&found), hex(&left), hex(&wanted)))
}

/// Tables of one number less, or with a number less that is not 0.
fn lesser_tables(table: &[u64]) -> Vec<Vec<u64>> {
    let mut tables: Vec<Vec<u64>> = table.split_last().iter().map(|(_, rest)| rest.to_vec()).collect();
    for at in (0..table.len()).filter(|&at| table[at] > 0) {
        let mut lesser = table.to_vec();
        lesser[at] = 0;
        tables.push(lesser);
    }
    tables
}

fn data_size(identifier: u32) -> usize {
    match row(identifier) {
        Some(Kind::Dates) => 40,
        Some(Kind::Size) => 16,
        Some(Kind::Marker) => 12,
        _ => 8,
    }
}

/// A table into buffers about as long as the data, and into one more.
fn compare_put(edition: u64, identifier: u32, table: &[u64], other: usize) -> Outcome {
    let n = data_size(identifier);
    let sizes = [0, n - 1, n, n + 1, n + 3, other];
    let differs = |table: &[u64]| sizes.iter().find_map(|&size| put_differs(edition, identifier, table, size));
    if differs(table).is_none() {
        return Ok(sizes.len() as u64);
    }
    let mut least = table.to_vec();
    while let Some(lesser) = lesser_tables(&least).into_iter().find(|table| differs(table).is_some()) {
        least = lesser;
    }
    Err(differs(&least).unwrap_or_default())
}

/// A number of a table: small ones, and ones about 2^32.
fn any_number(r: &mut Random) -> u64 {
    match r.below(4) {
        0 => r.below(6) as u64,
        1 => (1 << 32) + r.below(6) as u64,
        2 => r.pick(&[u64::from(u32::MAX), 1 << 63, u64::MAX, 1 << 31]),
        _ => r.next() >> r.below(64),
    }
}

fn flag(r: &mut Random) -> u64 {
    if r.once_in(8) {
        r.pick(&[2, 255, 256, 1 << 32, (1 << 32) + 1, u64::MAX])
    } else {
        r.below(2) as u64
    }
}

fn date(r: &mut Random) -> u64 {
    if r.once_in(3) {
        any_date(r)
    } else {
        good_date(r)
    }
}

/// The case of an identifier's kind; a stranger's is any.
fn own_case(r: &mut Random, identifier: u32) -> u64 {
    match row(identifier) {
        Some(Kind::Marker) => 0,
        Some(Kind::SimpleCondition | Kind::SimpleAction | Kind::SimpleException) => 1,
        Some(Kind::Size) => 2,
        Some(Kind::Dates) => 3,
        Some(Kind::WordList) => 4,
        None => r.below(5) as u64,
    }
}

/// A table of `len` numbers that, with five or more, mostly says a value of that case.
fn table(r: &mut Random, case: u64, identifier: u32, len: usize) -> Vec<u64> {
    let mut numbers: Vec<u64> = (0..len.max(VALUE)).map(|_| any_number(r)).collect();
    numbers[0] = case;
    if case == 1 && !r.once_in(6) {
        numbers[1] = u64::from(identifier);
    } else if case == 1 && r.once_in(2) {
        numbers[1] = u64::from(identifier) + (1 << 32);
    } else if case == 2 && !r.once_in(4) {
        numbers[1] = r.next() >> 32;
        numbers[2] = r.next() >> 32;
    } else if case == 3 {
        numbers[1] = flag(r);
        numbers[2] = flag(r);
        numbers[3] = date(r);
        numbers[4] = date(r);
    }
    numbers.truncate(len);
    numbers
}

fn random_table(r: &mut Random) -> Outcome {
    let edition = edition(r);
    let identifier = identifier(r, edition);
    let case = match r.below(10) {
        0 => r.below(6) as u64,
        1 => any_number(r),
        _ => own_case(r, identifier),
    };
    let len = if r.once_in(10) { r.below(VALUE) } else { VALUE + r.below(3) };
    let (table, other) = (table(r, case, identifier, len), r.below(45));
    compare_put(edition, identifier, &table, other)
}

/// Tables of 0 to 7 numbers of every case, in every edition, and into buffers of every size.
fn every_table(r: &mut Random, identifier: u32) -> Outcome {
    let mut cases = 0;
    for edition in EDITIONS {
        for case in [0, 1, 2, 3, 4, 5, 6, 1 << 32, (1 << 32) + 1, u64::MAX] {
            for len in 0..=VALUE + 2 {
                let table = table(r, case, identifier, len);
                for size in [r.below(45), r.below(45)] {
                    cases += compare_put(edition, identifier, &table, size)?;
                }
            }
        }
    }
    let case = own_case(r, identifier);
    for size in 0..45 {
        let table = table(r, case, identifier, VALUE);
        cases += compare_put(STUDIO, identifier, &table, size)?;
    }
    Ok(cases)
}

pub fn put(plan: &Plan) -> Outcome {
    let tried = tried();
    let edges = pieces(tried.len(), |i| {
        let mut r = Random::new(plan.seed.wrapping_mul(6007).wrapping_add(i as u64));
        every_table(&mut r, tried[i])
    })?;
    Ok(edges + by_chance(plan, 7001, random_table)?)
}
