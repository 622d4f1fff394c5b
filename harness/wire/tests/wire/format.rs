//! The shape table agrees with docs/FORMAT.md, with the encoder and with the
//! reference's declarations.

use std::collections::BTreeSet;
use std::fmt::Debug;
use std::fs;

use krabka_metadata::QuotaEntity;
use wire::table::{ELEMENTS, Form, KINDS, Presence, Row, Shape, shape};
use wire::{HEADER, Run, encode, encoded_offset};

use crate::samples;

#[test]
fn the_table_is_that_of_the_format_page() {
    let path = concat!(env!("CARGO_MANIFEST_DIR"), "/../../docs/FORMAT.md");
    let page = fs::read_to_string(path).unwrap();
    let (_, after) = page.split_once("<!-- fields:").unwrap();
    let (fields, _) = after.split_once("<!-- end of fields -->").unwrap();
    let table = fields.lines().filter(|line| line.starts_with('|'));
    let lines: Vec<String> = table.skip(2).map(String::from).collect();
    assert_eq!(lines, page_lines());
}

/// The table as the page's lines.
fn page_lines() -> Vec<String> {
    let numbered = |(kind, shape): (usize, &'static Shape)| {
        let label = format!("{kind} {}", shape.name);
        shape.rows.iter().map(move |row| page_line(&label, row))
    };
    let elements = ELEMENTS.iter().flat_map(|shape| {
        let line = |row| page_line(shape.name, row);
        shape.rows.iter().map(line)
    });
    let kinds = (1..).zip(&KINDS).flat_map(numbered);
    kinds.chain(elements).collect()
}

fn page_line(label: &str, row: &Row) -> String {
    let form = match row.form {
        Form::Nested(shape) => shape.name.into(),
        Form::NodeSet => "node set".into(),
        form => format!("{form:?}").to_lowercase(),
    };
    let size = match row.form {
        Form::Nested(_) => "-".into(),
        _ => row.size.to_string(),
    };
    let presence = match row.presence {
        Presence::UpTo(limit) => format!("up to {limit}"),
        presence => format!("{presence:?}").to_lowercase(),
    };
    let Row { tag, name, .. } = row;
    format!("| {label} | {tag} | {name} | {form} | {size} | {presence} |")
}

#[test]
fn tags_count_from_one() {
    for shape in KINDS.iter().chain(&ELEMENTS) {
        let tags: Vec<u8> = shape.rows.iter().map(|row| row.tag).collect();
        let counted: Vec<u8> = (1..).take(tags.len()).collect();
        assert_eq!(tags, counted, "{}", shape.name);
    }
}

#[test]
fn filled_records_have_every_field() {
    let mut met = BTreeSet::new();
    let filled = samples::filled().into_iter();
    let filled = filled.map(|(record, _)| encode(&record).unwrap());
    for (kind, bytes) in (1..).zip(filled.chain([encoded_offset(7)])) {
        assert_eq!(bytes[0], kind);
        walk(shape(kind).unwrap(), &bytes[HEADER..], &mut met);
    }
    let shapes = KINDS.iter().chain(&ELEMENTS);
    let all = shapes.flat_map(|shape| shape.rows.iter().map(|row| (shape.name, row.name)));
    assert_eq!(met, all.collect());
}

/// Holds each field of a run to its row, and collects the rows that are met.
fn walk(shape: &'static Shape, run: &[u8], met: &mut BTreeSet<(&'static str, &'static str)>) {
    for (tag, value) in Run::new(run).map(Result::unwrap) {
        let row = &shape.rows[usize::from(tag) - 1];
        let place = (shape.name, row.name);
        match row.form {
            Form::Nested(shape) => walk(shape, value, met),
            form => assert!(has_width(form, row.size, value), "{place:?}: {value:?}"),
        }
        met.insert(place);
    }
}

/// The value is as wide as the Rust type that the form stands for, and not
/// empty where it is a list.
fn has_width(form: Form, size: usize, value: &[u8]) -> bool {
    let number = |width| size == width && value.len() == width;
    let list = |width| !value.is_empty() && value.len().is_multiple_of(width);
    match form {
        Form::U16 => number(size_of::<u16>()),
        Form::U64 => number(size_of::<u64>()),
        Form::I16 => number(size_of::<i16>()),
        Form::I32 => number(size_of::<i32>()),
        Form::I64 | Form::Offset => number(size_of::<i64>()),
        Form::F64 => number(size_of::<f64>()),
        Form::Id => number(size_of::<u128>()),
        Form::Bool | Form::Enum => value.len() == 1 && usize::from(value[0]) < size,
        Form::String | Form::Key => str::from_utf8(value).is_ok(),
        Form::Bytes => !value.is_empty(),
        Form::Nodes | Form::NodeSet => list(size_of::<u64>()),
        Form::Ids => list(size_of::<u128>()),
        Form::Nested(_) => false,
    }
}

#[test]
fn emptied_records_have_the_required_fields_alone() {
    for (shape, record) in KINDS.iter().zip(samples::emptied()) {
        let bytes = encode(&record).unwrap();
        let fields = Run::new(&bytes[HEADER..]).map(Result::unwrap);
        let tags: Vec<u8> = fields.map(|(tag, _)| tag).collect();
        let required = |row: &&Row| row.presence == Presence::Required;
        let rows = shape.rows.iter().filter(required);
        let expected: Vec<u8> = rows.map(|row| row.tag).collect();
        assert_eq!(tags, expected, "{}", shape.name);
    }
}

#[test]
fn kinds_and_fields_are_the_declared_ones() {
    for (shape, (record, _)) in KINDS.iter().zip(samples::filled()) {
        let shown = format!("{record:#?}");
        assert!(shown.starts_with(&format!("V1{}(", shape.name)), "{shown}");
        // The id of DeleteBreakGlassProposal stands in no struct.
        if shape.name != "DeleteBreakGlassProposal" {
            assert_eq!(declared(&shown, "        "), names(shape));
        }
    }
}

#[test]
fn element_fields_are_the_declared_ones() {
    let entity = QuotaEntity {
        entity_type: String::new(),
        entity_name: None,
    };
    let endpoint = &samples::endpoint_values()[0];
    let values: [&dyn Debug; 3] = [endpoint, &samples::approval_value("p"), &entity];
    for (shape, value) in ELEMENTS.iter().zip(values) {
        assert_eq!(declared(&format!("{value:#?}"), "    "), names(shape));
    }
}

fn names(shape: &Shape) -> Vec<&str> {
    shape.rows.iter().map(|row| row.name).collect()
}

/// The names of a struct's fields in declaration order, from its derived Debug
/// text, where they stand behind the indent.
fn declared<'a>(shown: &'a str, indent: &str) -> Vec<&'a str> {
    let at_indent = shown.lines().filter_map(|line| line.strip_prefix(indent));
    let fields = at_indent.filter(|line| !line.starts_with(' '));
    let names = fields.filter_map(|line| line.split_once(": "));
    names.map(|(name, _)| name).collect()
}
