//! The fields of an end by name, as `dump` writes and `set` takes them. Each kind of end has one table for both.

use crate::console::{decimal, hex, Said, Word};
use std::fmt::Write;

pub enum Field<'a> {
    Bool(&'a mut bool),
    Byte(&'a mut u8),
    Word(&'a mut u16),
    Words(&'a mut [u16]),
    Bytes(&'a mut [u8]),
    Other(&'a mut (dyn Number + 'static)),
}

/// A number of sixteen bits that its end keeps in a form of its own.
pub trait Number {
    fn number(&self) -> u16;
    fn set_number(&mut self, number: u16);
}

impl Field<'_> {
    /// The largest number `set` takes for the field or its element.
    pub fn largest(&self) -> u16 {
        match self {
            Field::Bool(_) => 1,
            Field::Byte(_) | Field::Bytes(_) => 0xFF,
            Field::Word(_) | Field::Words(_) | Field::Other(_) => 0xFFFF,
        }
    }

    /// The number of elements of an array, none for a single value.
    pub fn elements(&self) -> Option<usize> {
        match self {
            Field::Bool(_) | Field::Byte(_) | Field::Word(_) | Field::Other(_) => None,
            Field::Words(words) => Some(words.len()),
            Field::Bytes(bytes) => Some(bytes.len()),
        }
    }

    /// Element `index`, 0 for a single value. The caller keeps `value` to `largest` and `index` to `elements`.
    pub fn store(&mut self, index: usize, value: u16) {
        match self {
            Field::Bool(bool) => **bool = value == 1,
            Field::Byte(byte) => **byte = value as u8,
            Field::Word(word) => **word = value,
            Field::Words(words) => words[index] = value,
            Field::Bytes(bytes) => bytes[index] = value as u8,
            Field::Other(other) => other.set_number(value),
        }
    }

    fn value(&self, index: usize) -> u16 {
        match self {
            Field::Bool(bool) => u16::from(**bool),
            Field::Byte(byte) => u16::from(**byte),
            Field::Word(word) => **word,
            Field::Words(words) => words[index],
            Field::Bytes(bytes) => u16::from(bytes[index]),
            Field::Other(other) => other.number(),
        }
    }

    pub fn values(&self) -> impl Iterator<Item = u16> + '_ {
        (0..self.elements().unwrap_or(1)).map(|index| self.value(index))
    }
}

pub fn dump<'a>(fields: impl IntoIterator<Item = (&'static str, Field<'a>)>) -> String {
    let mut text = String::new();
    for (name, field) in fields {
        if !text.is_empty() {
            text.push(' ');
        }
        text.push_str(name);
        let mut before = '=';
        for value in field.values() {
            write!(text, "{}{:X}", before, value).expect("memory takes what is written");
            before = ',';
        }
    }
    text
}

/// What follows `set`: a name, for an array the index, and the value.
pub fn set<'a>(fields: impl IntoIterator<Item = (&'static str, Field<'a>)>, words: &[Word]) -> Said {
    let (name, index, value) = match words {
        [name, value] => (name, None, value),
        [name, index, value] => (name, Some(index), value),
        _ => return Err("a field and its value are needed"),
    };
    let found = fields.into_iter().find(|(known, _)| known.as_bytes() == *name);
    let (_, mut field) = found.ok_or("no such field")?;
    let index = match (field.elements(), index) {
        (None, None) => 0,
        (Some(elements), Some(index)) => usize::from(decimal(index, elements as u32 - 1)?),
        _ => return Err("an array needs an index, no other field has one"),
    };
    field.store(index, hex(value, u32::from(field.largest()))?);
    Ok("ok".to_string())
}
