//! The forms of a field's value, as bytes and back.
//!
//! Both directions take everything. Of a record that the library read, the value is the
//! field's; of other bytes it is some value. A value above every limit is cut to one that
//! still is, so that its length fits two bytes and the library refuses it as it would
//! refuse the whole.

use std::collections::BTreeMap;

use crate::field::{Lists, Source};
use crate::kind::{Action, Fencing, PatternType, Protocol, Recovery};
use crate::shapes::{Approval, Endpoint, Entity, Levels, Partition};

/// More bytes than a string or a signature has at most.
const MOST_BYTES: usize = 2_048;

/// More elements than a list or a map has at most.
const MOST_ELEMENTS: usize = 65;

/// A run of fields: a record's or an element's.
pub(crate) trait Shape {
    fn lists(&self) -> Lists;
    fn of(source: Source<'_>) -> Self;
}

/// What stands as fields of one tag: one, none or several.
pub(crate) trait Form {
    fn put(&self, tag: u8, lists: &mut Lists);
    fn take<'a>(values: impl Iterator<Item = &'a [u8]>) -> Self;
}

/// What stands as one field.
pub(crate) trait Value {
    fn bytes(&self) -> Vec<u8>;
    fn of(bytes: &[u8]) -> Self;
}

/// So many bytes, zeros where there are fewer.
fn fixed<const N: usize>(bytes: &[u8]) -> [u8; N] {
    let mut fixed = [0; N];
    for (place, byte) in fixed.iter_mut().zip(bytes) {
        *place = *byte;
    }
    fixed
}

macro_rules! numbers {
    ($($number:ty)*) => {$(
        impl Value for $number {
            fn bytes(&self) -> Vec<u8> {
                self.to_be_bytes().to_vec()
            }

            fn of(bytes: &[u8]) -> Self {
                <$number>::from_be_bytes(fixed(bytes))
            }
        }
    )*};
}

numbers! { u16 u64 i16 i32 i64 f64 }

macro_rules! choices {
    ($($choice:ident)*) => {$(
        impl Value for $choice {
            fn bytes(&self) -> Vec<u8> {
                vec![self.number()]
            }

            fn of(bytes: &[u8]) -> Self {
                let [number] = fixed(bytes);
                $choice::from_number(number).unwrap_or($choice::ALL[0])
            }
        }
    )*};
}

choices! { PatternType Action Recovery Fencing Protocol }

impl Value for bool {
    fn bytes(&self) -> Vec<u8> {
        vec![u8::from(*self)]
    }

    fn of(bytes: &[u8]) -> Self {
        fixed(bytes) == [1]
    }
}

impl Value for [u8; 16] {
    fn bytes(&self) -> Vec<u8> {
        self.to_vec()
    }

    fn of(bytes: &[u8]) -> Self {
        fixed(bytes)
    }
}

impl Value for String {
    fn bytes(&self) -> Vec<u8> {
        clipped(self).as_bytes().to_vec()
    }

    fn of(bytes: &[u8]) -> Self {
        String::from_utf8_lossy(bytes).into_owned()
    }
}

/// A string that is too long is cut between two of its characters, so that it stays
/// UTF-8.
pub(crate) fn clipped(text: &str) -> &str {
    let end = (0..=MOST_BYTES.min(text.len()))
        .rev()
        .find(|end| text.is_char_boundary(*end));
    text.get(..end.unwrap_or(0)).unwrap_or_default()
}

impl Value for Vec<u8> {
    fn bytes(&self) -> Vec<u8> {
        self.iter().take(MOST_BYTES).copied().collect()
    }

    fn of(bytes: &[u8]) -> Self {
        bytes.to_vec()
    }
}

impl Value for Vec<u64> {
    fn bytes(&self) -> Vec<u8> {
        let elements = self.iter().take(MOST_ELEMENTS);
        elements.flat_map(|node| node.to_be_bytes()).collect()
    }

    fn of(bytes: &[u8]) -> Self {
        bytes.chunks_exact(8).map(u64::of).collect()
    }
}

impl Value for Vec<[u8; 16]> {
    fn bytes(&self) -> Vec<u8> {
        let elements = self.iter().take(MOST_ELEMENTS);
        elements.flatten().copied().collect()
    }

    fn of(bytes: &[u8]) -> Self {
        bytes.chunks_exact(16).map(fixed).collect()
    }
}

macro_rules! nested {
    ($($shape:ident)*) => {$(
        impl Value for $shape {
            fn bytes(&self) -> Vec<u8> {
                self.lists().run()
            }

            fn of(bytes: &[u8]) -> Self {
                Shape::of(Source::Run(bytes))
            }
        }
    )*};
}

nested! { Partition Endpoint Approval Entity }

macro_rules! required {
    ($($value:ty)*) => {$(
        impl Form for $value {
            fn put(&self, tag: u8, lists: &mut Lists) {
                lists.push(tag, &self.bytes());
            }

            fn take<'a>(mut values: impl Iterator<Item = &'a [u8]>) -> Self {
                Value::of(values.next().unwrap_or_default())
            }
        }
    )*};
}

required! {
    u16 u64 i16 i32 i64 bool [u8; 16] String Vec<u8> Vec<u64> Vec<[u8; 16]>
    PatternType Action Recovery Fencing Protocol Partition
}

impl<T: Value> Form for Option<T> {
    fn put(&self, tag: u8, lists: &mut Lists) {
        if let Some(value) = self {
            lists.push(tag, &value.bytes());
        }
    }

    fn take<'a>(mut values: impl Iterator<Item = &'a [u8]>) -> Self {
        values.next().map(T::of)
    }
}

macro_rules! repeated {
    ($($shape:ident)*) => {$(
        impl Form for Vec<$shape> {
            fn put(&self, tag: u8, lists: &mut Lists) {
                for element in self.iter().take(MOST_ELEMENTS) {
                    lists.push(tag, &element.bytes());
                }
            }

            fn take<'a>(values: impl Iterator<Item = &'a [u8]>) -> Self {
                values.map($shape::of_run).collect()
            }
        }

        impl $shape {
            fn of_run(run: &[u8]) -> Self {
                Value::of(run)
            }
        }
    )*};
}

repeated! { Endpoint Approval Entity }

/// What a map has at a key. The element begins with the key, at tag 1.
pub(crate) trait Mapped {
    fn put_behind_key(&self, lists: &mut Lists);
    fn of(element: Source<'_>) -> Self;
}

impl Mapped for String {
    fn put_behind_key(&self, lists: &mut Lists) {
        self.put(2, lists);
    }

    fn of(element: Source<'_>) -> Self {
        Form::take(element.values(2))
    }
}

impl Mapped for Levels {
    fn put_behind_key(&self, lists: &mut Lists) {
        self.low.put(2, lists);
        self.high.put(3, lists);
    }

    fn of(element: Source<'_>) -> Self {
        Levels {
            low: Form::take(element.values(2)),
            high: Form::take(element.values(3)),
        }
    }
}

impl<T: Mapped> Form for BTreeMap<String, T> {
    fn put(&self, tag: u8, lists: &mut Lists) {
        for (key, value) in self.iter().take(MOST_ELEMENTS) {
            let mut element = Lists::default();
            key.put(1, &mut element);
            value.put_behind_key(&mut element);
            lists.push(tag, &element.run());
        }
    }

    fn take<'a>(values: impl Iterator<Item = &'a [u8]>) -> Self {
        values
            .map(Source::Run)
            .map(|element| (Form::take(element.values(1)), T::of(element)))
            .collect()
    }
}
