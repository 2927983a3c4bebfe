//! Edits of a deck in its buffer: slices moved and written.
use super::check::{check, Deck, HEADER};
use super::step::{head_size, rule, rule_end, size_at, u32_in, units};
use super::{coded, Answer, Refused};

const COUNT: usize = 5;
const LONG: &[u8; 18] = b"\xFF\xFF\0\0\x0C\0CRuleElement";
const SHORT: &[u8; 2] = b"\x01\x80";

/// The deck in the first bytes of a buffer, and those bytes' number.
fn judged(edition: u64, buf: &[u8], length: u64) -> Answer<(Deck, usize)> {
    if edition != 1 && edition != 2 {
        return Err(Refused(1, 0));
    }
    if length > buf.len() as u64 {
        return Err(Refused(15, 0));
    }
    let length = length as usize;
    Ok((check(edition, &buf[..length])?, length))
}

fn there(k: u64, n: usize, place: usize) -> Answer<usize> {
    if k < n as u64 {
        Ok(k as usize)
    } else {
        Err(Refused(16, place))
    }
}

fn put(buf: &mut [u8], at: usize, bytes: &[u8]) -> usize {
    let end = at + bytes.len();
    buf[at..end].copy_from_slice(bytes);
    end
}

fn put_rules(buf: &mut [u8], n: usize) {
    put(buf, COUNT, &(n as u16).to_le_bytes());
}

/// The index of so many rules, which stand behind it.
fn put_index(buf: &mut [u8], n: usize) {
    let mut at = HEADER + 4 * n;
    for k in 0..n {
        put(buf, HEADER + 4 * k, &(at as u32).to_le_bytes());
        at = rule_end(buf, at);
    }
}

/// The head of a rule at place k, of the rule at `at` whose bytes before it are in place; and its Data Size, by as much more.
fn put_head(buf: &mut [u8], at: usize, k: usize, old: usize) -> usize {
    let size = size_at(buf, at);
    let head: &[u8] = if k == 0 { LONG } else { SHORT };
    let n = u32_in(buf, size) as usize + head.len() - old;
    put(buf, size, &(n as u32).to_le_bytes());
    put(buf, size + 6, head)
}

/// Where the head of the rule at a place starts.
fn head_at(s: &[u8], at: usize) -> usize {
    size_at(s, at) + 6
}

#[inline(never)]
pub fn switch(edition: u64, buf: &mut [u8], length: u64, k: u64, on: bool) -> u64 {
    coded(judged(edition, buf, length).and_then(|(deck, length)| {
        let at = rule(buf, &deck, there(k, deck.rules, 0)?).0;
        let enabled = units(buf, at + 4).1;
        put(buf, enabled, &(on as u32).to_le_bytes());
        Ok(length)
    }))
}

#[inline(never)]
pub fn remove(edition: u64, buf: &mut [u8], length: u64, k: u64) -> u64 {
    coded(judged(edition, buf, length).and_then(|(deck, length)| {
        let n = deck.rules;
        let k = there(k, n, 0)?;
        let (start, end) = rule(buf, &deck, k);
        let mut new = if k == 0 && n > 1 {
            let head = head_at(buf, end);
            buf.copy_within(end..head, start);
            let rest = put_head(buf, start, 0, SHORT.len());
            buf.copy_within(head + SHORT.len()..length, rest);
            rest + length - head - SHORT.len()
        } else {
            buf.copy_within(end..length, start);
            start + length - end
        };
        put_rules(buf, n - 1);
        if deck.offset > 0 {
            buf.copy_within(HEADER + 4 * n..new, HEADER + 4 * (n - 1));
            put_index(buf, n - 1);
            new -= 4;
        }
        buf[new..length].fill(0);
        Ok(new)
    }))
}

#[inline(never)]
pub fn insert(edition: u64, buf: &mut [u8], length: u64, k: u64, second: &[u8], j: u64) -> u64 {
    coded(inserted(edition, buf, length, k, second, j))
}

fn judge_result(buf: &[u8], rules: usize, length: usize) -> Answer<()> {
    if rules > 256 {
        return Err(Refused(18, 0));
    }
    if length > 60_000 {
        return Err(Refused(19, 0));
    }
    if length > buf.len() {
        return Err(Refused(20, 0));
    }
    Ok(())
}

fn inserted(edition: u64, buf: &mut [u8], length: u64, k: u64, second: &[u8], j: u64) -> Answer<usize> {
    let (deck, length) = judged(edition, buf, length)?;
    let other = check(edition, second).map_err(|Refused(number, place)| Refused(number + 32, place))?;
    let (n, offset) = (deck.rules, deck.offset);
    let k = there(k, n + 1, 0)?;
    let j = there(j, other.rules, 1)?;
    let (from, to) = rule(second, &other, j);
    let taken = to - from + head_size(k) - head_size(j);
    let lost = if k == 0 && n > 0 { LONG.len() - SHORT.len() } else { 0 };
    let new = length + taken - lost + offset;
    judge_result(buf, n + 1, new)?;
    let start = offset + if k == n { length } else { rule(buf, &deck, k).0 };
    if offset > 0 {
        buf.copy_within(deck.rules_start()..length, deck.rules_start() + offset);
    }
    let (next, length) = (start + taken, length + offset);
    if lost > 0 {
        let head = head_at(buf, start);
        buf.copy_within(head + LONG.len()..length, head + taken + SHORT.len());
        buf.copy_within(start..head, next);
        put_head(buf, next, 1, LONG.len());
    } else {
        buf.copy_within(start..length, next);
    }
    let head = head_at(second, from);
    put(buf, start, &second[from..head]);
    let rest = put_head(buf, start, k, head_size(j));
    put(buf, rest, &second[head + head_size(j)..to]);
    put_rules(buf, n + 1);
    if offset > 0 {
        put_index(buf, n + 1);
    }
    Ok(new)
}
