//! Walking over bytes field by field.

use crate::refusal::{ensure, Reason, Refusal};

/// A field's value and the offset of its first byte.
pub(crate) struct Field<T> {
    pub value: T,
    pub place: usize,
}

impl<T> Field<T> {
    /// The value, if the rule holds for it.
    pub fn check(self, reason: Reason, rule: impl FnOnce(&T) -> bool) -> Result<T, Refusal> {
        ensure(rule(&self.value), reason, self.place)?;
        Ok(self.value)
    }

    /// The value converted by `f`; refused where `f` gives `None`.
    pub fn convert<U>(self, reason: Reason, f: impl FnOnce(T) -> Option<U>) -> Result<U, Refusal> {
        f(self.value).ok_or(Refusal::at(reason, self.place))
    }
}

pub(crate) struct Cursor<'a> {
    bytes: &'a [u8],
    at: usize,
}

impl<'a> Cursor<'a> {
    pub fn new(bytes: &'a [u8]) -> Self {
        Cursor { bytes, at: 0 }
    }

    /// Offset of the next field.
    pub fn place(&self) -> usize {
        self.at
    }

    /// The next `N` bytes as one field; 2 where they are not wholly inside.
    pub fn array<const N: usize>(&mut self) -> Result<Field<[u8; N]>, Refusal> {
        let place = self.at;
        let value = self.bytes[place..]
            .first_chunk::<N>()
            .ok_or(Refusal::at(Reason::CutOff, place))?;
        self.at += N;
        Ok(Field {
            value: *value,
            place,
        })
    }

    pub fn u8(&mut self) -> Result<Field<u8>, Refusal> {
        let Field {
            value: [value],
            place,
        } = self.array()?;
        Ok(Field { value, place })
    }

    pub fn i8(&mut self) -> Result<Field<i8>, Refusal> {
        let Field { value, place } = self.array()?;
        Ok(Field {
            value: i8::from_le_bytes(value),
            place,
        })
    }

    pub fn u16(&mut self) -> Result<Field<u16>, Refusal> {
        let Field { value, place } = self.array()?;
        Ok(Field {
            value: u16::from_le_bytes(value),
            place,
        })
    }

    pub fn u32(&mut self) -> Result<Field<u32>, Refusal> {
        let Field { value, place } = self.array()?;
        Ok(Field {
            value: u32::from_le_bytes(value),
            place,
        })
    }

    pub fn u64(&mut self) -> Result<Field<u64>, Refusal> {
        let Field { value, place } = self.array()?;
        Ok(Field {
            value: u64::from_le_bytes(value),
            place,
        })
    }

    /// A 32-byte text field, returned without its padding.
    pub fn text(&mut self) -> Result<Vec<u8>, Refusal> {
        self.array::<32>()?.convert(Reason::Text, |field| {
            let used = field.iter().position(|&b| b == 0).unwrap_or(field.len());
            let (text, padding) = field.split_at(used);
            let valid = text.iter().all(|&b| is_text_byte(b)) && padding.iter().all(|&b| b == 0);
            valid.then(|| text.to_vec())
        })
    }

    /// One pad byte, a field of its own.
    pub fn pad(&mut self) -> Result<(), Refusal> {
        self.u8()?.check(Reason::Value, |&b| b == 0)?;
        Ok(())
    }

    /// Nothing may follow.
    pub fn end(&self) -> Result<(), Refusal> {
        ensure(self.at == self.bytes.len(), Reason::TrailingBytes, self.at)
    }
}

/// The bytes a text may hold.
pub(crate) fn is_text_byte(byte: u8) -> bool {
    (0x20..=0x7E).contains(&byte)
}
