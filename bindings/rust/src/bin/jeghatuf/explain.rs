//! Which field the library refuses. Write says a number and no place; so it is asked again,
//! with the first field alone, the first two, and so on, the fields behind them being the
//! plainest that there are. The first number that is no 0 is about the last field given.

use crate::parse::{Fault, put};
use crate::run::{Lists, Run};
use crate::table::{Field, Form, Presence, Shape};
use jeghatuf::Refusal;

/// What is wrong with a run of fields that Write refuses by a number.
pub fn explain(kind: u8, shape: &Shape, run: &[u8], number: u8) -> Box<Fault> {
    let fields: Vec<(u8, &[u8])> = Run(run).collect();
    if let Some(fault) = missing(shape, run) {
        return fault;
    }
    for count in 1..=fields.len() {
        let (given, last) = fields.split_at(count - 1);
        let &[(tag, value), ..] = last else { continue };
        let Err(number) = attempt(kind, shape, given, tag, value) else {
            continue;
        };
        let Some(field) = field_of(shape, tag) else {
            continue;
        };
        let index = given.iter().filter(|(before, _)| *before == tag).count();
        let fault = if is_one_more(kind, shape, given, (tag, value), number) {
            said(field, value, number)
        } else {
            inner(kind, shape, given, field, value).unwrap_or_else(|| said(field, value, number))
        };
        return fault.inside(&place(field, index));
    }
    Fault::new(words(number))
}

/// Whether an element that is over a limit is taken without those before it: then their
/// count is what is refused.
fn is_one_more(
    kind: u8,
    shape: &Shape,
    given: &[(u8, &[u8])],
    (tag, value): (u8, &[u8]),
    number: u8,
) -> bool {
    let others = given.iter().copied().filter(|(before, _)| *before != tag);
    let others: Vec<(u8, &[u8])> = others.collect();
    Refusal::from_number(number) == Refusal::OverALimit
        && others.len() < given.len()
        && attempt(kind, shape, &others, tag, value).is_ok()
}

/// The field of an element that is refused.
fn inner(
    kind: u8,
    shape: &Shape,
    given: &[(u8, &[u8])],
    field: &Field,
    value: &[u8],
) -> Option<Box<Fault>> {
    let Form::Shape(element) = field.form else {
        return None;
    };
    let fields: Vec<(u8, &[u8])> = Run(value).collect();
    for count in 1..=fields.len() {
        let (before, last) = fields.split_at(count - 1);
        let &[(tag, found), ..] = last else { continue };
        let value = completed(element, before, tag, found);
        if let Err(number) = attempt(kind, shape, given, field.tag, &value) {
            let inner = field_of(element, tag)?;
            return Some(said(inner, found, number).inside(inner.name));
        }
    }
    None
}

fn attempt(
    kind: u8,
    shape: &Shape,
    given: &[(u8, &[u8])],
    tag: u8,
    value: &[u8],
) -> Result<(), u8> {
    let run = completed(shape, given, tag, value);
    Lists::default().write(kind, &run, &mut Vec::new())
}

/// A run of the fields given, then the one of a tag, and behind it the plainest ones that
/// are required.
fn completed(shape: &Shape, given: &[(u8, &[u8])], tag: u8, value: &[u8]) -> Vec<u8> {
    let mut run = Vec::new();
    for (before, value) in given {
        put(&mut run, *before, value);
    }
    put(&mut run, tag, value);
    for field in shape.fields.iter().filter(|field| field.tag > tag) {
        if field.presence == Presence::Required {
            put(&mut run, field.tag, &plainest(&field.form));
        }
    }
    run
}

fn plainest(form: &Form) -> Vec<u8> {
    match form {
        Form::Text | Form::Key | Form::Bytes => Vec::new(),
        Form::Nodes | Form::NodeSet | Form::Ids => Vec::new(),
        Form::Bool | Form::Enum(_) => vec![0],
        Form::U16 | Form::I16 => vec![0; 2],
        Form::I32 => vec![0; 4],
        Form::U64 | Form::I64 | Form::F64 | Form::Offset => vec![0; 8],
        Form::Id => vec![0; 16],
        Form::Shape(shape) => {
            let mut run = Vec::new();
            for field in shape.fields {
                put(&mut run, field.tag, &plainest(&field.form));
            }
            run
        }
    }
}

/// The first required field that is not there, also inside elements.
fn missing(shape: &Shape, run: &[u8]) -> Option<Box<Fault>> {
    for field in shape.fields {
        let mut values = Run(run).values(field.tag).peekable();
        if field.presence == Presence::Required && values.peek().is_none() {
            return Some(Fault::new("the field is missing").inside(field.name));
        }
        if let Form::Shape(element) = field.form {
            let faults = values.enumerate().find_map(|(index, value)| {
                missing(element, value).map(|fault| fault.inside(&place(field, index)))
            });
            if faults.is_some() {
                return faults;
            }
        }
    }
    None
}

/// A field, or the element of it at an index from 0.
fn place(field: &Field, index: usize) -> String {
    match field.presence {
        Presence::Repeated => format!("{}[{index}]", field.name),
        _ => field.name.to_string(),
    }
}

fn field_of(shape: &Shape, tag: u8) -> Option<&'static Field> {
    shape.fields.iter().find(|field| field.tag == tag)
}

fn said(field: &Field, value: &[u8], number: u8) -> Box<Fault> {
    let refusal = Refusal::from_number(number);
    let is_text = str::from_utf8(value).is_ok();
    let reason = match (refusal, &field.form) {
        (Refusal::Wrong, Form::Text | Form::Key) if !is_text => "no UTF-8",
        (Refusal::Wrong, Form::Key) => "the key is not above the one before it",
        (Refusal::Wrong, Form::Offset) => "a log offset is -1 or more",
        (Refusal::OverALimit, Form::Shape(_)) => "one more than there may be",
        (Refusal::OverALimit, Form::Text | Form::Key) => "the string is too long",
        (Refusal::OverALimit, Form::Bytes) => "too many bytes",
        (Refusal::OverALimit, _) => "the list is too long",
        _ => return Fault::new(words(number)),
    };
    Fault::new(format!("{reason} ({number})"))
}

fn words(number: u8) -> String {
    format!("{} ({number})", Refusal::from_number(number))
}
