//! The least of Write's input that shows a difference.

use oracle::shrink::{STEPS, least, shorter};
use wire::{HEADER, Lists};

use crate::Compared;

/// A field of the lists: a tag and a length, where there is one, and its values.
#[derive(Clone)]
struct Field {
    tag: Option<u8>,
    length: Option<u16>,
    values: Vec<u8>,
}

impl Field {
    /// With fewer values.
    fn simpler(&self) -> Vec<Self> {
        let counts = shorter(self.values.len()).into_iter();
        counts.map(|count| self.cut(count)).collect()
    }

    /// With so many values; a length that says how many there are says it again.
    fn cut(&self, count: usize) -> Self {
        let all = Some(self.values.len() as u16);
        let length = match self.length == all {
            true => Some(count as u16),
            false => self.length,
        };
        Self {
            tag: self.tag,
            length,
            values: self.values[..count].to_vec(),
        }
    }
}

/// The difference of fewer fields and values, into an output that is as much too
/// short or too long as the drawn one.
pub fn least_lists(
    difference: String,
    lists: &Lists,
    out: &[u8],
    mut compare: impl FnMut(&Lists, &[u8]) -> Compared,
) -> String {
    let longer = out.len() as isize - written(lists) as isize;
    let compare = |fields: &[Field]| {
        let lists = joined(lists.kind, fields);
        let room = written(&lists).saturating_add_signed(longer);
        let out: Vec<u8> = out.iter().copied().cycle().take(room).collect();
        compare(&lists, &out)
    };
    least(STEPS, difference, &fields(lists), Field::simpler, compare).1
}

/// The bytes of the record that the lists say.
fn written(lists: &Lists) -> usize {
    HEADER + HEADER * lists.tags.len() + lists.values.len()
}

/// The fields, and behind them the values that no length counts.
fn fields(lists: &Lists) -> Vec<Field> {
    let mut rest = &lists.values[..];
    let mut take = |count: usize| {
        let (values, after) = rest.split_at(count.min(rest.len()));
        rest = after;
        values.to_vec()
    };
    let field = |place: usize| {
        let length = lists.lengths.get(place).copied();
        Field {
            tag: lists.tags.get(place).copied(),
            length,
            values: take(length.unwrap_or(0).into()),
        }
    };
    let count = lists.tags.len().max(lists.lengths.len());
    let mut fields: Vec<Field> = (0..count).map(field).collect();
    fields.push(Field {
        tag: None,
        length: None,
        values: rest.to_vec(),
    });
    fields
}

fn joined(kind: u8, fields: &[Field]) -> Lists {
    Lists {
        kind,
        tags: fields.iter().filter_map(|field| field.tag).collect(),
        lengths: fields.iter().filter_map(|field| field.length).collect(),
        values: fields
            .iter()
            .flat_map(|field| field.values.clone())
            .collect(),
    }
}
