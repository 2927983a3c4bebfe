//! The cases of values: data into a value's table, and such a table into data.
use crate::baseline::element::{data_bytes, Data, Element};
use crate::baseline::kind::identifiers;
use crate::baseline::results::{self, numbers_of};
use crate::baseline::value::Value;
use crate::baseline::{DESK, STUDIO};
use crate::call::*;
use crate::file::File;
use crate::parts::*;

pub fn all_values() -> File {
    let mut file = File::new("values");
    plain_data(&mut file);
    other_data(&mut file);
    file
}

pub fn all_puts() -> File {
    let mut file = File::new("puts");
    put_values(&mut file);
    put_tables(&mut file);
    put_dates(&mut file);
    file
}

fn plain_data(file: &mut File) {
    for identifier in identifiers() {
        let data = data_bytes(&element(identifier).data);
        for edition in [1, 2, 3] {
            value(file, edition, identifier, &data);
        }
    }
    for Element { identifier, data } in shapes() {
        let data = data_bytes(&data);
        for edition in EDITIONS {
            for bytes in each_answer(faulty_data(&data), |b| value_answer(edition, identifier, b)) {
                value(file, edition, identifier, &bytes);
            }
            other_rooms(file, VALUE, &[edition, u64::from(identifier)], results::VALUE, &[&data]);
        }
        other_rooms(file, VALUE, &[STUDIO, u64::from(identifier)], results::VALUE, &[&data[1..]]);
    }
}

/// Words of many lengths, dates at the bounds and beyond, and no such identifiers.
fn other_data(file: &mut File) {
    for lengths in [&[][..], &[0], &[1], &[254], &[255], &[0; 64], &[0; 65]] {
        value(file, STUDIO, 0x211, &data_bytes(&words(lengths).data));
    }
    for (length, units) in [(&[0xFF, 254, 0][..], 254), (&[0xFF, 0, 1], 256), (&[0xFF, 255, 0], 254), (&[0xFF, 255], 0)]
    {
        let data = [&[1, 0, 0, 0, 0, 0, 0, 0], length, &vec![7; 2 * units]].concat();
        value(file, STUDIO, 0x219, &data);
    }
    for date in [-657_435.0, 2_958_466.0, f64::INFINITY, f64::NAN, -657_434.5, 2_958_465.9] {
        for data in [Data::Dates(span(date, 2.0)), Data::Dates(span(2.0, date)), Data::Dates(span(date, date))] {
            value(file, STUDIO, 0x20D, &data_bytes(&data));
        }
    }
    for wrong in [0, 0xF0, 0x190, 0x2F5, 0x0100_00F5] {
        for edition in [0, 1, 2] {
            value(file, edition, wrong, &[]);
        }
    }
}

/// The table of a value, 0 where its case has no number.
fn table_of(value: &Value) -> Vec<u64> {
    let mut table = numbers_of(value);
    table.resize(results::VALUE, 0);
    table
}

fn put(file: &mut File, edition: u64, identifier: u32, value: &[u64], buffer: &[u8]) {
    file.call(PUT_VALUE, &[&[edition, u64::from(identifier)], value].concat(), &[buffer]);
}

/// A value of each sort that goes back, with its identifier and the bytes of its data.
fn sorts() -> [(u32, Vec<u64>, usize); 4] {
    [
        (0x64, table_of(&Value::Marker), 12),
        (0xC8, table_of(&Value::Simple(0xC8)), 8),
        (0xE0, table_of(&Value::Size(0, MOST as u32)), 16),
        (0x20D, table_of(&Value::Dates(span(-657_434.0, 2_958_465.5))), 40),
    ]
}

fn put_values(file: &mut File) {
    let values = [Value::Marker, Value::Size(7, 3), Value::Dates(span(-0.0, 2.5)), Value::Words(0), Value::Words(2)];
    for identifier in identifiers() {
        for value in values.iter().chain(&[Value::Simple(identifier), Value::Simple(0xC8)]) {
            put(file, STUDIO, identifier, &table_of(value), &[0xA5; 48]);
        }
        for edition in [DESK, 0] {
            put(file, edition, identifier, &table_of(&Value::Simple(identifier)), &[0xA5; 48]);
        }
    }
    for (identifier, value, size) in sorts() {
        for n in [0, 1, size - 1, size, size + 1] {
            put(file, STUDIO, identifier, &value, &vec![0xA5; n]);
        }
    }
    for wrong in [0, 0xF0, 0x2F5, 0x0100_00F5] {
        put(file, STUDIO, wrong, &table_of(&Value::Simple(wrong)), &[]);
        put(file, DESK, wrong, &table_of(&Value::Marker), &[]);
        put(file, 3, wrong, &table_of(&Value::Marker), &[]);
    }
}

/// Tables that say no value, and tables with other numbers where their value has none.
fn put_tables(file: &mut File) {
    for (identifier, value, size) in sorts() {
        let buffer = vec![0xA5; size];
        for n in 0..value.len() {
            put(file, STUDIO, identifier, &value[..n], &buffer);
        }
        put(file, STUDIO, identifier, &[&value[..], &[MOST, 5]].concat(), &buffer);
        for at in 0..value.len() {
            for other in [value[at] ^ 2, value[at] + (1 << 32), MOST] {
                let mut table = value.clone();
                table[at] = other;
                put(file, STUDIO, identifier, &table, &buffer);
            }
        }
        for case in [4, 5, 6, 256] {
            let table = [&[case], &value[1..]].concat();
            put(file, STUDIO, identifier, &table, &buffer);
            put(file, STUDIO, identifier, &table, &[]);
            put(file, DESK, identifier, &table, &[]);
            put(file, 0, identifier, &table, &[]);
            put(file, STUDIO, 0xF0, &table, &[]);
        }
    }
    for count in [1, 1 << 32, MOST] {
        put(file, STUDIO, 0x211, &[4, count, 0, 0, 0], &[0xA5; 48]);
        put(file, DESK, 0x211, &[4, count], &[]);
    }
}

/// Dates that are none: 40 before 43 before 20.
fn put_dates(file: &mut File) {
    let good = 2.0f64.to_bits();
    let beyond = [-657_435.0, 2_958_466.0, f64::INFINITY, f64::NEG_INFINITY, 1e300].map(f64::to_bits);
    for bits in beyond.iter().copied().chain([0x7FF0_0000_0000_0001, MOST]) {
        for (after, before) in [(bits, good), (good, bits), (bits, bits)] {
            let table = [3, 1, 0, after, before];
            put(file, STUDIO, 0xE1, &table, &[0xA5; 40]);
            put(file, STUDIO, 0xE1, &table, &[0xA5; 39]);
            put(file, STUDIO, 0xE0, &table, &[0xA5; 40]);
            put(file, DESK, 0xE1, &table, &[]);
            put(file, STUDIO, 0xE1, &[3, 2, 0, after, before], &[0xA5; 40]);
            put(file, STUDIO, 0xE1, &[3, 1, 2, after, before], &[0xA5; 39]);
        }
    }
}
