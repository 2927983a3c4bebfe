//! Fields read left to right, each judged as soon as it is read; and the same fields written.
use super::text::{units_of, Form, Text, View};
use super::{refuse, Answer};

pub struct Reader<'a> {
    bytes: &'a [u8],
    pub at: usize,
}

impl<'a> Reader<'a> {
    pub fn new(bytes: &'a [u8]) -> Reader<'a> {
        Reader { bytes, at: 0 }
    }

    pub fn here(&self) -> u64 {
        self.at as u64
    }

    /// A field of that many bytes; "3: a field runs past the end", at its start.
    pub fn field(&mut self, size: usize) -> Answer<&'a [u8]> {
        if self.bytes.len() - self.at < size {
            return refuse(3, self.here());
        }
        let start = self.at;
        self.at += size;
        Ok(&self.bytes[start..self.at])
    }

    /// A little-endian number of up to 8 bytes.
    pub fn number(&mut self, size: usize) -> Answer<u64> {
        let bytes = self.field(size)?;
        Ok(bytes.iter().rev().fold(0, |n, &b| n * 256 + u64::from(b)))
    }

    /// A number of 4 bytes.
    pub fn word(&mut self) -> Answer<u32> {
        Ok(self.number(4)? as u32)
    }

    /// A field with a set value; `fault` at its start where it differs.
    pub fn set(&mut self, value: &[u8], fault: u64) -> Answer<()> {
        let start = self.here();
        if self.field(value.len())? == value {
            Ok(())
        } else {
            refuse(fault, start)
        }
    }

    /// A word of 4 bytes with a set value.
    pub fn constant(&mut self, value: u32) -> Answer<()> {
        self.set(&value.to_le_bytes(), 8)
    }

    /// Enabled or a flag: 4 bytes, 0 or 1.
    pub fn flag(&mut self) -> Answer<bool> {
        let start = self.here();
        match self.word()? {
            0 => Ok(false),
            1 => Ok(true),
            _ => refuse(8, start),
        }
    }

    /// A count within its range; 6 at the count.
    pub fn count(&mut self, size: usize, least: u64, most: u64) -> Answer<u64> {
        let start = self.here();
        let n = self.number(size)?;
        if n < least || n > most {
            return refuse(6, start);
        }
        Ok(n)
    }

    /// A String and where it stands: "its length bytes, then 7, then its units; a cut answers its start".
    pub fn string(&mut self) -> Answer<(Text, View)> {
        let start = self.here();
        self.string_parts().or_else(|r| refuse(r.number, start))
    }

    /// "FF means that a 2-byte length follows"; "7 remains for more than 255 units".
    fn string_parts(&mut self) -> Answer<(Text, View)> {
        let (form, units) = match self.number(1)? {
            0xFF => (Form::Long, self.number(2)? as usize),
            units => (Form::Short, units as usize),
        };
        if units > form.most() {
            return refuse(7, 0);
        }
        let first = self.at;
        let units = units_of(self.field(2 * units)?);
        Ok((Text { form, units }, View { form, first, end: self.at }))
    }
}

pub fn write_word(out: &mut Vec<u8>, n: u32) {
    out.extend_from_slice(&n.to_le_bytes());
}
