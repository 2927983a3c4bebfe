//! The lister in plain Rust: one reading into tables, lines into one buffer, one write at the end.
mod plain;

use plain::tables::RULE_WIDTH;
use std::io::{Read, Write};

fn list(deck: &[u8], out: &mut impl Write) -> std::io::Result<()> {
    let (mut rules, mut elements) = ([0u32; 256 * RULE_WIDTH], [0u32; 4096 * 4]);
    let answer = plain::read(2, deck, &mut rules, &mut elements);
    if answer % 256 != 0 {
        return writeln!(out, "REFUSED {} {}", answer % 256, answer / 256);
    }
    writeln!(out, "DECK {} {}", deck[3], deck.len())?;
    let mut all = 0;
    let n = answer as usize / 256;
    for (k, row) in rules.chunks_exact(RULE_WIDTH).take(n).enumerate() {
        let units = (row[4] - row[2]) / 2;
        let state = if deck[row[4] as usize] == 1 { "ON" } else { "OFF" };
        writeln!(out, "RULE {k} {state} {units} {}", row[3])?;
        for (j, row) in elements.chunks_exact(4).skip(all).take(row[3] as usize).enumerate() {
            writeln!(out, "ELEM {j} {:08X} {}", row[0], row[3] - row[2])?;
        }
        all += row[3] as usize;
    }
    writeln!(out, "END {n} {all}")
}

fn main() -> std::io::Result<()> {
    let mut deck = Vec::with_capacity(65_536);
    std::io::stdin().take(65_536).read_to_end(&mut deck)?;
    let mut out = std::io::BufWriter::with_capacity(1 << 20, std::io::stdout());
    list(&deck, &mut out)?;
    out.flush()
}
