//! The seven edits, by their definition: read, edit the list, write in the same version, lay in the buffer.
use super::deck::{read, write, Deck, Fixed, One, Rule, MOST_BYTES, MOST_ELEMENTS, MOST_RULES, MOST_WORDS};
use super::element::{given_element, Data};
use super::text::{units_of, Text};
use super::{given, judge_edition, refuse, Answer};

/// What an edit is asked for. Names and words are the bytes of their units.
#[derive(Clone, Debug, PartialEq, Eq)]
pub enum Edit {
    Switch { k: u64, on: bool },
    Rename { k: u64, name: Vec<u8> },
    Remove { k: u64 },
    Insert { k: u64, second: Vec<u8>, j: u64 },
    AddRule { name: Vec<u8>, fixed: Fixed, identifier: u32, data: Vec<u8> },
    AddElement { identifier: u32, data: Vec<u8> },
    AddWord { word: Vec<u8> },
}

/// "no rule k", and the rule's place in the list.
fn rule_number(rules: &[Rule], k: u64, place: u64) -> Answer<usize> {
    if k < rules.len() as u64 {
        Ok(k as usize)
    } else {
        refuse(16, place)
    }
}

/// "17: new name or word has an odd byte count or over 510 bytes"; "the shortest form for the name or word given".
fn new_text(bytes: &[u8]) -> Answer<Text> {
    if bytes.len() % 2 == 1 || bytes.len() > 510 {
        return refuse(17, 0);
    }
    Ok(Text::shortest(units_of(bytes)))
}

fn insert(edition: u64, rules: &mut Vec<Rule>, k: u64, second: &[u8], j: u64) -> Answer<()> {
    let other = given(read(edition, second))?.rules;
    if k > rules.len() as u64 {
        return refuse(16, 0);
    }
    let j = rule_number(&other, j, 1)?;
    rules.insert(k as usize, other[j].clone());
    Ok(())
}

fn add_element(edition: u64, rules: &mut [Rule], identifier: u32, data: &[u8]) -> Answer<()> {
    let rule = match rules.last_mut() {
        None => return refuse(22, 0),
        Some(rule) => rule,
    };
    if rule.elements.len() == MOST_ELEMENTS {
        return refuse(21, 0);
    }
    rule.elements.push(given_element(edition, identifier, data)?);
    Ok(())
}

fn add_word(rules: &mut [Rule], word: &[u8]) -> Answer<()> {
    let last = rules.last_mut().and_then(|rule| rule.elements.last_mut());
    let words = match last.map(|element| &mut element.data) {
        Some(Data::Words(words)) => words,
        _ => return refuse(22, 0),
    };
    if words.len() == MOST_WORDS {
        return refuse(21, 0);
    }
    words.push(new_text(word)?);
    Ok(())
}

/// The edited list of rules, or the refusals from 34 of a second deck up to 34 to 45 of an element.
pub fn edited(edition: u64, mut rules: Vec<Rule>, edit: &Edit) -> Answer<Vec<Rule>> {
    match edit {
        Edit::Switch { k, on } => {
            let k = rule_number(&rules, *k, 0)?;
            rules[k].fixed.on = *on;
        }
        Edit::Rename { k, name } => {
            let k = rule_number(&rules, *k, 0)?;
            rules[k].name = new_text(name)?;
        }
        Edit::Remove { k } => {
            let k = rule_number(&rules, *k, 0)?;
            rules.remove(k);
        }
        Edit::Insert { k, second, j } => insert(edition, &mut rules, *k, second, *j)?,
        Edit::AddRule { name, fixed, identifier, data } => {
            let name = new_text(name)?;
            let element = given_element(edition, *identifier, data)?;
            rules.push(Rule { fixed: *fixed, name, elements: vec![element] });
        }
        Edit::AddElement { identifier, data } => add_element(edition, &mut rules, *identifier, data)?,
        Edit::AddWord { word } => add_word(&mut rules, word)?,
    }
    Ok(rules)
}

/// The deck in the buffer, zeros from new to old length where it shrank, the rest as found.
fn lay(buffer: &mut [u8], old: usize, deck: &[u8]) {
    buffer[..deck.len()].copy_from_slice(deck);
    if deck.len() < old {
        buffer[deck.len()..old].fill(0);
    }
}

/// "19: result over 60,000 bytes", "20: result longer than the buffer".
pub fn judge_room(deck: &[u8], buffer: &[u8]) -> Answer<()> {
    if deck.len() > MOST_BYTES {
        return refuse(19, 0);
    }
    if deck.len() > buffer.len() {
        return refuse(20, 0);
    }
    Ok(())
}

/// An edit: 1, 15, 2 to 13 and 29, those of `edited`, 18, 19, 20; done, the new length.
pub fn edit(edition: u64, buffer: &mut [u8], length: u64, edit: &Edit) -> Answer<u64> {
    judge_edition(edition)?;
    if length > buffer.len() as u64 {
        return refuse(15, 0);
    }
    let old = length as usize;
    let Deck { version, rules, .. } = read(edition, &buffer[..old])?;
    let rules = edited(edition, rules, edit)?;
    if rules.len() > MOST_RULES {
        return refuse(18, 0);
    }
    let deck = write(version, &rules);
    judge_room(&deck, buffer)?;
    lay(buffer, old, &deck);
    Ok(deck.len() as u64)
}

/// "Starting an empty deck takes a buffer alone, writes its first 7 bytes, touches no other and answers 7".
pub fn start(buffer: &mut [u8]) -> Answer<u64> {
    let deck = write(One, &[]);
    judge_room(&deck, buffer)?;
    buffer[..deck.len()].copy_from_slice(&deck);
    Ok(deck.len() as u64)
}
