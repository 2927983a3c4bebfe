//! Results that need no deck: kinds and moments here, values in their own file.
use crate::baseline::kind::identifiers;
use crate::baseline::random::{any_date, good_date, Random};
use crate::baseline::results::{self, KIND, MOMENT};
use crate::baseline::{DESK, STUDIO};
use crate::lent::{every_size, tables_differ};
use crate::share::{pieces, Answers};
use crate::{door, values, Outcome, Plan};

/// The two, and numbers that are none; some have one of the two in their low bits.
pub const EDITIONS: [u64; 8] = [DESK, STUDIO, 0, 3, 257, (1 << 32) + 1, (1 << 32) + 2, u64::MAX];

static KINDS: Answers = Answers::new();
static MOMENTS: Answers = Answers::new();

fn kind_differs(edition: u64, identifier: u32) -> Option<String> {
    let archive = |table: &mut [u32]| door::kind(edition, identifier, table);
    let baseline = |table: &mut [u32]| results::kind(edition, identifier, table);
    let what = tables_differ(&KINDS, every_size(KIND), archive, baseline)?;
    Some(format!("kind, edition {edition}, identifier {identifier:08X}, {what}"))
}

/// The values that differ from an identifier in one byte, and its neighbours.
fn near(identifier: u32) -> Vec<u32> {
    let mut values = vec![identifier - 1, identifier, identifier + 1];
    for at in 0..4 {
        values.extend((1..256).map(|byte| identifier ^ byte << (8 * at)));
    }
    values
}

/// All below 2^16, those near the 35, and random ones.
fn kinds(plan: &Plan) -> Outcome {
    let mut r = Random::new(plan.seed.wrapping_mul(31));
    let mut values: Vec<u32> = (0..1 << 16).collect();
    values.extend(identifiers().into_iter().flat_map(near));
    values.extend((0..plan.results).map(|_| r.next() as u32));
    let chunks: Vec<&[u32]> = values.chunks(1 << 12).collect();
    pieces(chunks.len(), |i| {
        let pairs = chunks[i].iter().flat_map(|&identifier| EDITIONS.map(|edition| (edition, identifier)));
        match pairs.clone().find_map(|(edition, identifier)| kind_differs(edition, identifier)) {
            Some(case) => Err(case),
            None => Ok(pairs.count() as u64),
        }
    })
}

/// `far` asks for tables of every size.
fn moment_differs(bits: u64, far: bool) -> Option<String> {
    let sizes = if far { every_size(MOMENT) } else { MOMENT..=MOMENT };
    let what = tables_differ(&MOMENTS, sizes, |table| door::moment(bits, table), |table| results::moment(bits, table))?;
    Some(format!("moment, bits {bits:016X} ({:?}), {what}", f64::from_bits(bits)))
}

/// The doubles about one: itself, the two next to it, and the negative ones.
fn about(date: f64) -> Vec<u64> {
    let near = [date, -date].map(|date| date.to_bits());
    near.iter().flat_map(|&bits| [bits, bits.wrapping_add(1), bits.wrapping_sub(1)]).collect()
}

/// Every exponent with the least, the greatest and a random fraction, of both signs.
fn every_exponent(r: &mut Random) -> Vec<u64> {
    let fractions = [0, 1, (1 << 52) - 1, 1 << 51, r.next() >> 12];
    let sizes = (0..2048).flat_map(|exponent| fractions.map(|fraction| exponent << 52 | fraction));
    sizes.flat_map(|size| [size, size | 1 << 63]).collect()
}

/// The first day of every month, with the month's number: 1 January 100 is day -657434.
fn first_days() -> Vec<(usize, i64)> {
    let mut days = Vec::new();
    let mut first = -657_434;
    for year in 100..10_000 {
        let leap = year % 4 == 0 && (year % 100 != 0 || year % 400 == 0);
        for month in 1..=12 {
            days.push((month, first));
            first += match month {
                2 => 28 + i64::from(leap),
                4 | 6 | 9 | 11 => 30,
                _ => 31,
            };
        }
    }
    days
}

/// A double on that day, at some second of it or next to one.
fn on_day(r: &mut Random, day: i64) -> u64 {
    let fraction = match r.below(4) {
        0 => 0.0,
        1 => 1.0 - f64::EPSILON,
        _ => r.below(86_400) as f64 / 86_400.0,
    };
    let date = if day < 0 { day as f64 - fraction } else { day as f64 + fraction };
    date.to_bits().wrapping_add(r.below(3) as u64).wrapping_sub(1)
}

fn moments(plan: &Plan) -> Outcome {
    let mut r = Random::new(plan.seed.wrapping_mul(37));
    let bounds =
        [0.0, 1.0, 2.0, 59.0, 60.0, 61.0, 657_434.0, 657_435.0, 2_958_465.0, 2_958_466.0, f64::INFINITY, f64::NAN];
    let mut all: Vec<u64> = bounds.iter().flat_map(|&date| about(date)).collect();
    all.extend(every_exponent(&mut r));
    for (month, day) in first_days() {
        if month == 1 || month == 3 || r.once_in(8) {
            all.extend([on_day(&mut r, day - 1), on_day(&mut r, day)]);
        }
    }
    for _ in 0..plan.results / 8 {
        let day = r.below(3_615_902) as i64 - 657_435;
        all.extend([good_date(&mut r), any_date(&mut r), on_day(&mut r, day), r.next()]);
    }
    let chunks: Vec<&[u64]> = all.chunks(1 << 10).collect();
    pieces(chunks.len(), |i| {
        let mut numbered = chunks[i].iter().enumerate();
        match numbered.find_map(|(n, &bits)| moment_differs(bits, n % 16 == 0)) {
            Some(case) => Err(case),
            None => Ok(chunks[i].len() as u64),
        }
    })
}

pub fn all(plan: &Plan) -> Outcome {
    let cases = kinds(plan)? + moments(plan)? + values::read(plan)? + values::put(plan)?;
    let counts = [("kind", &KINDS), ("moment", &MOMENTS), ("value", &values::READ), ("put_value", &values::PUT)];
    for (call, answers) in counts {
        println!("compare: results: how often each number was answered: {call}{}", answers.counted());
    }
    Ok(cases)
}
