//! A stand-in for the archive, made of the baseline itself: with it the comparison must agree, and with a
//! fault planted (by number, in the variable FAULT) it must find the fault. So a comparison that can't fail is noticed.
mod baseline;
#[path = "stand_in/forms.rs"]
mod forms;
#[path = "stand_in/versions.rs"]
mod versions;

use baseline::coded;
use baseline::convert::convert;
use baseline::deck::{check, Fixed, One, Two, Version};
use baseline::edit::{edit, start, Edit};
use baseline::results;
use baseline::tables::{fill, first_byte, name, word, RULE_WIDTH};
use std::slice::{from_raw_parts, from_raw_parts_mut};
use std::sync::atomic::{AtomicU64, Ordering};

/// The fault planted; 0 is none.
fn fault() -> u64 {
    static FAULT: AtomicU64 = AtomicU64::new(u64::MAX);
    if FAULT.load(Ordering::Relaxed) == u64::MAX {
        let number = std::env::var("FAULT").ok().and_then(|number| number.parse().ok());
        FAULT.store(number.unwrap_or(0), Ordering::Relaxed);
    }
    FAULT.load(Ordering::Relaxed)
}

type In = *const u8;
type Out = *mut u8;

/// A slice: with length 0 any pointer, NULL too.
unsafe fn part<'a, T>(at: *const T, len: usize) -> &'a [T] {
    if len == 0 {
        return &[];
    }
    from_raw_parts(at, len)
}

unsafe fn lent<'a, T>(at: *mut T, len: usize) -> &'a mut [T] {
    if len == 0 {
        return &mut [];
    }
    from_raw_parts_mut(at, len)
}

#[no_mangle]
pub unsafe extern "C" fn rule_deck_check(edition: u64, deck: In, len: usize) -> u64 {
    let mut bytes = part(deck, len).to_vec();
    if fault() == 1 && len >= 62 {
        bytes[61] = 0; // an identifier looked up by its low 24 bits
    }
    let answer = coded(check(edition, &bytes));
    versions::checked(edition, &bytes, forms::checked(edition, &bytes, answer))
}

/// What a read with a fault makes of a table of so many rules.
fn faulty_rows(rules: &mut [u32], n: usize) {
    if fault() == 2 && rules.len() > RULE_WIDTH * n {
        rules[RULE_WIDTH * n] = 0; // a number behind the last row
    }
    if fault() == 25 {
        for k in (1..n).rev() {
            rules[RULE_WIDTH * k + 4] = rules[RULE_WIDTH * k - 1]; // the Enabled of the rule before
        }
    }
}

#[no_mangle]
pub unsafe extern "C" fn rule_deck_read(
    edition: u64,
    deck: In,
    len: usize,
    r: *mut u32,
    rn: usize,
    e: *mut u32,
    en: usize,
) -> u64 {
    let (rules, elements) = (lent(r, rn), lent(e, en));
    let answer = coded(fill(edition, part(deck, len), rules, elements));
    if answer % 256 == 0 {
        faulty_rows(rules, (answer / 256) as usize);
        versions::faulty_rows(part(deck, len), rules);
    }
    if fault() == 26 && answer == 14 {
        let done = rule_deck_check(edition, deck, len);
        return if rn as u64 >= done / 256 * 4 { done } else { answer }; // room for four numbers a rule as enough
    }
    answer
}

#[no_mangle]
pub unsafe extern "C" fn rule_deck_name(edition: u64, deck: In, len: usize, k: u64) -> u64 {
    let k = if fault() == 3 { k as u32 as u64 } else { k }; // a number cut to 32 bits
    coded(first_byte(name(edition, part(deck, len), k)))
}

#[no_mangle]
pub unsafe extern "C" fn rule_deck_word(edition: u64, deck: In, len: usize, k: u64, e: u64, w: u64) -> u64 {
    coded(first_byte(word(edition, part(deck, len), k, e, w)))
}

#[no_mangle]
pub unsafe extern "C" fn rule_deck_start(buf: Out, len: usize) -> u64 {
    coded(start(lent(buf, len)))
}

unsafe fn on(edition: u64, buf: Out, len: usize, length: u64, what: Edit) -> u64 {
    let buffer = lent(buf, len);
    let before = buffer.to_vec();
    let answer = coded(edit(edition, buffer, length, &what));
    let new = (answer / 256) as usize;
    if fault() == 4 && answer % 256 == 0 && new < length as usize {
        buffer[new..length as usize].copy_from_slice(&before[new..length as usize]);
        // no zeros where it shrank
    }
    if fault() == 5 && answer % 256 == 0 && new > length as usize && new < len {
        buffer[new] = 0; // a byte behind the deck
    }
    if fault() == 6 && answer % 256 == 20 {
        buffer[len - 1] ^= 1; // a refusal that writes
    }
    if fault() == 7 && answer % 256 == 0 && matches!(what, Edit::Switch { k: 3, .. }) {
        buffer.copy_from_slice(&before); // rule 3: only a length
    }
    if fault() == 8 && answer == 19 && new == 0 && len < 60_001 {
        return 20; // 20 before 19
    }
    let old = &before[..(length as usize).min(len)];
    let answer = forms::left(buffer, old, &what, answer);
    versions::left(edition, buffer, old, &what, answer)
}

unsafe fn converted(to: Version, edition: u64, deck: In, len: usize, buf: Out, n: usize) -> u64 {
    let (deck, buffer) = (part(deck, len), lent(buf, n));
    let answer = coded(convert(to, edition, deck, buffer));
    versions::converted(to, edition, deck, buffer, answer)
}

#[no_mangle]
pub unsafe extern "C" fn rule_deck_to_2(edition: u64, deck: In, len: usize, buf: Out, n: usize) -> u64 {
    converted(Two, edition, deck, len, buf, n)
}

#[no_mangle]
pub unsafe extern "C" fn rule_deck_to_1(edition: u64, deck: In, len: usize, buf: Out, n: usize) -> u64 {
    converted(One, edition, deck, len, buf, n)
}

#[no_mangle]
pub unsafe extern "C" fn rule_deck_switch(edition: u64, buf: Out, len: usize, length: u64, k: u64, yes: bool) -> u64 {
    on(edition, buf, len, length, Edit::Switch { k, on: yes })
}

#[no_mangle]
pub unsafe extern "C" fn rule_deck_rename(
    edition: u64,
    buf: Out,
    len: usize,
    length: u64,
    k: u64,
    name: In,
    n: usize,
) -> u64 {
    on(edition, buf, len, length, Edit::Rename { k, name: part(name, n).to_vec() })
}

#[no_mangle]
pub unsafe extern "C" fn rule_deck_remove(edition: u64, buf: Out, len: usize, length: u64, k: u64) -> u64 {
    on(edition, buf, len, length, Edit::Remove { k })
}

#[no_mangle]
pub unsafe extern "C" fn rule_deck_insert(
    edition: u64,
    buf: Out,
    len: usize,
    length: u64,
    k: u64,
    second: In,
    n: usize,
    j: u64,
) -> u64 {
    on(edition, buf, len, length, Edit::Insert { k, second: part(second, n).to_vec(), j })
}

#[no_mangle]
pub unsafe extern "C" fn rule_deck_add_rule(
    edition: u64,
    buf: Out,
    len: usize,
    length: u64,
    name: In,
    n: usize,
    signature: u32,
    yes: bool,
    u2: u32,
    u3: u32,
    u4: u32,
    u5: u32,
    identifier: u32,
    data: In,
    m: usize,
) -> u64 {
    let fixed = Fixed { signature, on: yes, unknown: [u2, u3, u4, u5] };
    let (name, data) = (part(name, n).to_vec(), part(data, m).to_vec());
    on(edition, buf, len, length, Edit::AddRule { name, fixed, identifier, data })
}

#[no_mangle]
pub unsafe extern "C" fn rule_deck_add_element(
    edition: u64,
    buf: Out,
    len: usize,
    length: u64,
    identifier: u32,
    data: In,
    n: usize,
) -> u64 {
    on(edition, buf, len, length, Edit::AddElement { identifier, data: part(data, n).to_vec() })
}

#[no_mangle]
pub unsafe extern "C" fn rule_deck_add_word(
    edition: u64,
    buf: Out,
    len: usize,
    length: u64,
    word: In,
    n: usize,
) -> u64 {
    on(edition, buf, len, length, Edit::AddWord { word: part(word, n).to_vec() })
}

/// 256 times the major number, plus the minor: 1.3.
#[no_mangle]
pub extern "C" fn rule_deck_version() -> u64 {
    259
}

#[no_mangle]
pub unsafe extern "C" fn rule_deck_kind(edition: u64, identifier: u32, kind: *mut u32, n: usize) -> u64 {
    let table = lent(kind, n);
    let answer = coded(results::kind(edition, identifier, table));
    if fault() == 9 && answer == 14 && n == 1 {
        table[0] = 0; // a refusal that writes
    }
    if fault() == 10 && answer == 0 {
        table.swap(0, 1); // the role first
    }
    answer
}

#[no_mangle]
pub unsafe extern "C" fn rule_deck_fields(
    edition: u64,
    deck: In,
    len: usize,
    k: u64,
    fields: *mut u32,
    n: usize,
) -> u64 {
    let table = lent(fields, n);
    let answer = coded(results::fields(edition, part(deck, len), k, table));
    if fault() == 11 && answer % 256 == 16 {
        table.fill(0); // no such rule: no fields
    }
    answer
}

#[no_mangle]
pub unsafe extern "C" fn rule_deck_name_part(
    edition: u64,
    deck: In,
    len: usize,
    k: u64,
    table: *mut u32,
    n: usize,
) -> u64 {
    let table = lent(table, n);
    let answer = coded(results::name_part(edition, part(deck, len), k, table));
    if fault() == 12 && answer == 0 {
        table[2] = 0; // always the short form
    }
    answer
}

#[no_mangle]
pub unsafe extern "C" fn rule_deck_word_part(
    edition: u64,
    deck: In,
    len: usize,
    k: u64,
    e: u64,
    w: u64,
    table: *mut u32,
    n: usize,
) -> u64 {
    let table = lent(table, n);
    let answer = coded(results::word_part(edition, part(deck, len), [k, e, w], table));
    if fault() == 13 && answer == 0 {
        table[1] /= 2; // units for bytes
    }
    if fault() == 31 && answer == 0 {
        table[2] = u32::from(table[1] > 508); // the form that the number of units asks for
    }
    answer
}

#[no_mangle]
pub unsafe extern "C" fn rule_deck_moment(bits: u64, moment: *mut u32, n: usize) -> u64 {
    let date = f64::from_bits(bits);
    let asked = if fault() == 14 && date < 0.0 {
        (2.0 * date.floor() - date).to_bits() // -1.25 as 18:00 on 28 December
    } else {
        bits
    };
    let answer = coded(results::moment(asked, lent(moment, n)));
    if fault() == 15 && answer == 0 && n == 4 {
        *moment.add(4) = 0; // a number behind the table
    }
    answer
}

#[no_mangle]
pub unsafe extern "C" fn rule_deck_value(
    edition: u64,
    identifier: u32,
    data: In,
    len: usize,
    value: *mut u64,
    n: usize,
) -> u64 {
    if fault() == 16 && n < 5 {
        return 14; // 14 before 1
    }
    let table = lent(value, n);
    let answer = coded(results::value(edition, identifier, part(data, len), table));
    if fault() == 17 && answer == 0 && table[0] == 3 {
        table.swap(3, 4); // the date before as the date after
    }
    if fault() == 18 && answer == 0 && table[0] == 0 {
        table[1] = 0; // a number that the marker lacks
    }
    answer
}

/// What a put with a fault takes a table for.
fn taken(table: &[u64]) -> Vec<u64> {
    let mut table = table.to_vec();
    match (fault(), &mut table[..]) {
        (19, [3, flag, ..]) => *flag = (*flag).min(1), // any flag but 0 as set
        (20, [1, identifier, ..]) => *identifier %= 1 << 32, // its low 32 bits
        (21, [_, _, _, _]) => table.push(0),           // four numbers as five
        _ => {}
    }
    table
}

#[no_mangle]
pub unsafe extern "C" fn rule_deck_put_value(
    edition: u64,
    identifier: u32,
    value: *const u64,
    n: usize,
    buf: Out,
    len: usize,
) -> u64 {
    let (table, buffer) = (taken(part(value, n)), lent(buf, len));
    let answer = coded(results::put_value(edition, identifier, &table, buffer));
    if fault() == 22 && answer % 256 == 43 && len < 40 {
        return 20; // 20 before 43
    }
    if fault() == 23 && answer % 256 == 43 && len >= 8 {
        buffer[..8].copy_from_slice(&[1, 0, 0, 0, 0, 0, 0, 0]); // a refusal that has begun to write
    }
    if fault() == 24 && answer == 256 * 40 && table[3] == 1 << 63 {
        buffer[23] = 0; // minus zero as zero
    }
    answer
}
