//! The text that the lister prints for a deck, read as Studio.
use super::deck::read;
use super::{refuse, Answer, STUDIO};

const LISTED_ELEMENTS: usize = 4096;

fn lines(bytes: &[u8]) -> Answer<String> {
    let deck = read(STUDIO, bytes)?;
    let all: usize = deck.rules.iter().map(|rule| rule.elements.len()).sum();
    if all > LISTED_ELEMENTS {
        return refuse(14, 1);
    }
    let mut text = format!("DECK {} {}\n", deck.version as u8, bytes.len());
    for (k, (rule, place)) in deck.rules.iter().zip(&deck.places).enumerate() {
        let state = if rule.fixed.on { "ON" } else { "OFF" };
        text += &format!("RULE {k} {state} {} {}\n", rule.name.units.len(), rule.elements.len());
        for (i, (element, at)) in rule.elements.iter().zip(&place.elements).enumerate() {
            text += &format!("ELEM {i} {:08X} {}\n", element.identifier, at.end - at.start);
        }
    }
    Ok(text + &format!("END {} {all}\n", deck.rules.len()))
}

pub fn list(bytes: &[u8]) -> String {
    lines(bytes).unwrap_or_else(|r| format!("REFUSED {} {}\n", r.number, r.place))
}
