//! What two images differ in: their snapshots' records paired by what they are about.

use std::collections::HashMap;

use jeghatuf::{Kind, Record};

use crate::json::Json;
use crate::run::Run;
use crate::source::pieces;
use crate::table::{self, Field, Form, Presence, Shape};
use crate::{spell, words};

/// Something that is in one image alone, or another in each.
pub struct Difference<'a> {
    subject: String,
    first: Option<&'a [u8]>,
    second: Option<&'a [u8]>,
}

/// The differences of two snapshots, in their order: of each kind first what the first one
/// has, then what only the second one has.
pub fn differences<'a>(first: &'a [u8], second: &'a [u8]) -> Vec<Difference<'a>> {
    let (first, second) = (subjects(first), subjects(second));
    let kinds = order(&first, &second);
    let (ours, theirs) = (by_subject(&first), by_subject(&second));
    let mut found = Vec::new();
    for kind in kinds {
        for (subject, record) in of_kind(&first, kind) {
            let other = theirs.get(&(kind, subject.as_str())).copied();
            if other != Some(*record) {
                found.push(Difference::new(subject, Some(record), other));
            }
        }
        let only = of_kind(&second, kind)
            .filter(|(subject, _)| !ours.contains_key(&(kind, subject.as_str())));
        found.extend(only.map(|(subject, record)| Difference::new(subject, None, Some(record))));
    }
    found
}

type Subjects<'a> = Vec<(String, &'a [u8])>;

fn subjects(snapshot: &[u8]) -> Subjects<'_> {
    let subject = |bytes| {
        let record = Record::read(bytes).ok();
        (
            record.as_ref().map(words::subject).unwrap_or_default(),
            bytes,
        )
    };
    pieces(snapshot).into_iter().map(subject).collect()
}

fn kind_of(record: &[u8]) -> u8 {
    record.first().copied().unwrap_or(0)
}

/// The kinds of two snapshots in the order in which they stand there.
fn order(first: &Subjects<'_>, second: &Subjects<'_>) -> Vec<u8> {
    let rank = |kind: &u8| RANKS.iter().position(|ranked| ranked == kind);
    let both = first.iter().chain(second);
    let mut kinds: Vec<u8> = both.map(|(_, record)| kind_of(record)).collect();
    kinds.sort_by_key(rank);
    kinds.dedup();
    kinds
}

/// The order of the kinds in a snapshot.
const RANKS: [u8; 19] = [
    26, 3, 17, 6, 1, 2, 15, 21, 22, 5, 7, 8, 12, 16, 18, 19, 11, 13, 10,
];

fn by_subject<'a, 'b>(subjects: &'b Subjects<'a>) -> HashMap<(u8, &'b str), &'a [u8]> {
    let key = |(subject, record): &'b (String, &'a [u8])| ((kind_of(record), &**subject), *record);
    subjects.iter().map(key).collect()
}

fn of_kind<'a, 'b>(
    subjects: &'b Subjects<'a>,
    kind: u8,
) -> impl Iterator<Item = &'b (String, &'a [u8])> {
    subjects
        .iter()
        .filter(move |(_, record)| kind_of(record) == kind)
}

impl<'a> Difference<'a> {
    fn new(subject: &str, first: Option<&'a [u8]>, second: Option<&'a [u8]>) -> Self {
        Self {
            subject: subject.into(),
            first,
            second,
        }
    }

    /// Whether it is about the log offset.
    pub fn is_offset(&self) -> bool {
        let record = self.first.or(self.second).unwrap_or_default();
        kind_of(record) == Kind::LogOffset.number()
    }

    /// The line that says it.
    pub fn words(&self) -> String {
        let subject = &self.subject;
        match (self.first, self.second) {
            (Some(first), Some(second)) => {
                format!("{subject}: {}", changes(first, second).join("; "))
            }
            (Some(_), None) => format!("{subject}: only in the first"),
            _ => format!("{subject}: only in the second"),
        }
    }

    pub fn json(&self) -> Json {
        Json::object([
            ("subject", Json::text(&self.subject)),
            ("says", Json::text(&self.words())),
            ("first", Json::of(self.first, Json::record)),
            ("second", Json::of(self.second, Json::record)),
        ])
    }
}

/// What two records of a kind differ in, field by field.
fn changes(first: &[u8], second: &[u8]) -> Vec<String> {
    let Some(shape) = table::kind(kind_of(first)) else {
        return Vec::new();
    };
    let (first, second) = (Run::of_record(first), Run::of_record(second));
    let mut changes = Vec::new();
    for field in shape.fields {
        let ours: Vec<&[u8]> = first.values(field.tag).collect();
        let theirs: Vec<&[u8]> = second.values(field.tag).collect();
        match field.form {
            _ if ours == theirs => {}
            Form::Shape(element) if element.is_map() => {
                changes.extend(entries(field.name, element, &ours, &theirs));
            }
            _ => changes.push(format!(
                "{} {}, then {}",
                field.name,
                shown(field, &ours),
                shown(field, &theirs)
            )),
        }
    }
    changes
}

/// A field's value, or its values.
fn shown(field: &Field, values: &[&[u8]]) -> String {
    let texts: Vec<String> = values
        .iter()
        .map(|value| spell::value_text(&field.form, value))
        .collect();
    match field.presence {
        Presence::Repeated => format!("[{}]", texts.join(",")),
        _ => texts.first().map_or("none".into(), String::clone),
    }
}

/// What two maps differ in, key by key.
fn entries(name: &str, element: &Shape, first: &[&[u8]], second: &[&[u8]]) -> Vec<String> {
    let key = |entry: &&[u8]| Run(entry).value(1).unwrap_or_default().to_vec();
    let mut keys: Vec<Vec<u8>> = first.iter().chain(second).map(key).collect();
    keys.sort();
    keys.dedup();
    let at = |entries: &[&[u8]], wanted: &[u8]| {
        let entry = entries.iter().find(|entry| key(entry) == wanted);
        entry.map_or("none".into(), |entry| entry_text(element, entry))
    };
    let change = |wanted: &Vec<u8>| {
        let (ours, theirs) = (at(first, wanted), at(second, wanted));
        let wanted = words::name(&String::from_utf8_lossy(wanted));
        (ours != theirs).then(|| format!("{name} {wanted} {ours}, then {theirs}"))
    };
    keys.iter().filter_map(change).collect()
}

/// What a map has at a key: the one value, or the values by name.
fn entry_text(element: &Shape, entry: &[u8]) -> String {
    let run = Run(entry);
    let values = element.fields.iter().skip(1).filter_map(|field| {
        let value = run.value(field.tag)?;
        Some((field.name, spell::value_text(&field.form, value)))
    });
    let values: Vec<(&str, String)> = values.collect();
    match values.as_slice() {
        [(_, value)] => value.clone(),
        _ => {
            let named = values.iter().map(|(name, value)| format!("{name} {value}"));
            named.collect::<Vec<_>>().join(" ")
        }
    }
}
