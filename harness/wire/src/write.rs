//! Write: a record's bytes from its fields.

use crate::encode::field;
use crate::read::{UNKNOWN_KIND, check_run};
use crate::run::Run;
use crate::table::shape;

/// The output is too short.
pub const TOO_SHORT: u8 = 19;

/// What Write is given: a kind, and the fields of a record in three lists, the
/// tags, the lengths, and the values back to back.
#[derive(Debug)]
pub struct Lists {
    pub kind: u8,
    pub tags: Vec<u8>,
    pub lengths: Vec<u16>,
    pub values: Vec<u8>,
}

impl Lists {
    /// The fields of a record.
    pub fn of(record: &[u8]) -> Self {
        let (kind, body) = Run::new(record)
            .next()
            .and_then(Result::ok)
            .unwrap_or((0, &[]));
        let mut lists = Self {
            kind,
            tags: Vec::new(),
            lengths: Vec::new(),
            values: Vec::new(),
        };
        for (tag, value) in Run::new(body).map_while(Result::ok) {
            lists.tags.push(tag);
            lists.lengths.push(value.len() as u16);
            lists.values.extend(value);
        }
        lists
    }
}

/// Writes the record of these fields. The bytes written, or the refusal's
/// number; a refusal leaves the output as it is.
pub fn write(lists: &Lists, out: &mut [u8]) -> Result<usize, u8> {
    let shape = shape(lists.kind).ok_or(UNKNOWN_KIND)?;
    let body = gathered(&lists.tags, &lists.lengths, &lists.values);
    check_run(shape.rows, &body, None)?;
    let record = field(lists.kind, &body);
    let place = out.get_mut(..record.len()).ok_or(TOO_SHORT)?;
    place.copy_from_slice(&record);
    Ok(record.len())
}

/// The fields' bytes. Where a length is missing, runs past the values or is
/// left over, or values are left over, a torn field ends them.
fn gathered(tags: &[u8], lengths: &[u16], values: &[u8]) -> Vec<u8> {
    let torn = [0];
    let mut body = Vec::new();
    let mut rest = values;
    for (place, &tag) in tags.iter().enumerate() {
        let field = lengths
            .get(place)
            .and_then(|&length| rest.split_at_checked(usize::from(length)));
        let Some((value, after)) = field else {
            body.extend(torn);
            return body;
        };
        body.push(tag);
        body.extend(lengths[place].to_be_bytes());
        body.extend(value);
        rest = after;
    }
    if lengths.len() > tags.len() || !rest.is_empty() {
        body.extend(torn);
    }
    body
}
