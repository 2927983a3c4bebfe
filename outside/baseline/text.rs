//! Strings: a form and units; where one stands; and how it is written.

/// How a String says its length: by one byte, or by FF and "a 2-byte length".
#[derive(Clone, Copy, Debug, PartialEq, Eq)]
pub enum Form {
    Short,
    Long,
}

impl Form {
    /// The most units of a String in this form: FF as a length byte says the long form, so a short one has 254.
    pub fn most(self) -> usize {
        match self {
            Form::Short => 254,
            Form::Long => 255,
        }
    }
}

/// A String's value: "the form is part of a rule's value".
#[derive(Clone, Debug, PartialEq, Eq)]
pub struct Text {
    pub form: Form,
    pub units: Vec<u16>,
}

impl Text {
    pub fn long(units: Vec<u16>) -> Text {
        Text { form: Form::Long, units }
    }

    /// "Renaming and adding use the shortest form for the name or word given".
    pub fn shortest(units: Vec<u16>) -> Text {
        let form = if units.len() <= Form::Short.most() { Form::Short } else { Form::Long };
        Text { form, units }
    }
}

/// Where a String's units stand, and the form that it has there.
#[derive(Clone, Copy, Debug, PartialEq, Eq)]
pub struct View {
    pub form: Form,
    pub first: usize,
    pub end: usize,
}

/// 16-bit units from their bytes.
pub fn units_of(bytes: &[u8]) -> Vec<u16> {
    bytes.chunks(2).map(|p| u16::from_le_bytes([p[0], p[1]])).collect()
}

pub fn bytes_of(units: &[u16]) -> Vec<u8> {
    units.iter().flat_map(|unit| unit.to_le_bytes()).collect()
}

/// In the form that it has, whatever its length: "writing gives back the same bytes".
pub fn write_string(out: &mut Vec<u8>, text: &Text) {
    let n = text.units.len();
    match text.form {
        Form::Short => {
            assert!(n <= Form::Short.most(), "{n} units in the short form");
            out.push(n as u8);
        }
        Form::Long => {
            out.push(0xFF);
            out.extend_from_slice(&(n as u16).to_le_bytes());
        }
    }
    out.extend(bytes_of(&text.units));
}
