//! "Convert 1 to 2 and 2 to 1": a lent deck's rules written in the other version, from a lent buffer's start.
use super::deck::{read_taken, write, Version};
use super::edit::judge_room;
use super::Answer;

/// A deck of the other version than `to`: the read's refusals, 5 for any version but that one; then 19, 20; done, the new
/// length. Bytes past it stay.
pub fn convert(to: Version, edition: u64, bytes: &[u8], buffer: &mut [u8]) -> Answer<u64> {
    let deck = write(to, &read_taken(&[to.other()], edition, bytes)?.rules);
    judge_room(&deck, buffer)?;
    buffer[..deck.len()].copy_from_slice(&deck);
    Ok(deck.len() as u64)
}
