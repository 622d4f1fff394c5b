//! The table of fields in docs/FORMAT.md, and the command's own held to it.

use std::fs;

use crate::table::{Field, Form, KINDS, Presence, Shape};

/// A row of the table.
#[derive(Clone, Debug, PartialEq, Eq)]
pub struct Row {
    pub shape: String,
    pub tag: u8,
    pub field: String,
    pub form: String,
    pub size: Option<usize>,
    pub presence: String,
}

/// The rows of docs/FORMAT.md.
pub fn rows() -> Vec<Row> {
    let path = concat!(env!("CARGO_MANIFEST_DIR"), "/../../docs/FORMAT.md");
    let page = fs::read_to_string(path).unwrap();
    let lines = page.lines();
    let lines = lines.skip_while(|line| !line.starts_with("<!-- fields"));
    let lines = lines.take_while(|line| !line.starts_with("<!-- end of fields"));
    lines.filter_map(row).collect()
}

fn row(line: &str) -> Option<Row> {
    let cells: Vec<&str> = line.split('|').map(str::trim).collect();
    let [_, shape, tag, field, form, size, presence, _] = cells[..] else {
        return None;
    };
    Some(Row {
        shape: shape.into(),
        tag: tag.parse().ok()?,
        field: field.into(),
        form: form.into(),
        size: size.parse().ok(),
        presence: presence.into(),
    })
}

/// What the page calls a form.
fn form_name(form: &Form) -> &'static str {
    match form {
        Form::U16 => "u16",
        Form::U64 => "u64",
        Form::I16 => "i16",
        Form::I32 => "i32",
        Form::I64 => "i64",
        Form::F64 => "f64",
        Form::Id => "id",
        Form::Bool => "bool",
        Form::Enum(_) => "enum",
        Form::Text => "string",
        Form::Key => "key",
        Form::Bytes => "bytes",
        Form::Nodes => "nodes",
        Form::NodeSet => "node set",
        Form::Ids => "ids",
        Form::Offset => "offset",
        Form::Shape(shape) => shape.name,
    }
}

/// The shapes of the command's table: the kinds, and what their elements are.
fn shapes() -> Vec<(String, &'static Shape)> {
    let kinds = KINDS.iter().zip(1..);
    let mut shapes: Vec<(String, &'static Shape)> = kinds
        .map(|(shape, number)| (format!("{number} {}", shape.name), *shape))
        .collect();
    let fields = KINDS.iter().flat_map(|shape| shape.fields);
    let elements = fields.filter_map(|field| match field.form {
        Form::Shape(shape) if field.presence == Presence::Repeated => Some(shape),
        _ => None,
    });
    for element in elements {
        if !shapes.iter().any(|(name, _)| name == element.name) {
            shapes.push((element.name.into(), element));
        }
    }
    shapes
}

fn assert_same(row: &Row, field: &Field) {
    let presence = match field.presence {
        Presence::Required => "required",
        Presence::Optional => "optional",
        Presence::Repeated => "up to ",
    };
    assert_eq!(row.tag, field.tag, "{row:?}");
    assert_eq!(row.field, field.name, "{row:?}");
    assert_eq!(row.form, form_name(&field.form), "{row:?}");
    assert!(row.presence.starts_with(presence), "{row:?}");
    if let Form::Enum(names) = field.form {
        assert_eq!(row.size, Some(names.len()), "{row:?}");
    }
}

#[test]
fn the_table_is_that_of_the_page() {
    let rows = rows();
    let shapes = shapes();
    let mut count = 0;
    for (name, shape) in &shapes {
        let of_shape: Vec<&Row> = rows.iter().filter(|row| row.shape == *name).collect();
        assert_eq!(of_shape.len(), shape.fields.len(), "{name}");
        for (row, field) in of_shape.into_iter().zip(shape.fields) {
            assert_same(row, field);
            count += 1;
        }
    }
    assert_eq!(count, rows.len());
    assert_eq!(shapes.len(), 31);
}
