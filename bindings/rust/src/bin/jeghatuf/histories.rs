//! `histories`: all short histories of a few records.

use std::ffi::OsStr;

use jeghatuf::{LENGTH_LIMIT, RECORD_LIMIT, Refusal, calls, history};

use crate::answer;
use crate::arguments::{Arguments, Choice};
use crate::failure::{Failure, Outcome, Status};
use crate::input::{Input, Window};
use crate::json::Json;
use crate::runs::give;
use crate::source::{MOST_HEADED, pieces};
use crate::words;

pub fn histories(arguments: &Arguments) -> Outcome {
    let words: Vec<&OsStr> = arguments
        .words
        .iter()
        .map(|word| word.as_os_str())
        .collect();
    let (file, number) = match words.as_slice() {
        [file] => (*file, None),
        [file, number] => (*file, Some(arguments.number(number, "history's number")?)),
        _ => return Err(arguments.wrong("a file, and perhaps a number expected")),
    };
    if number.is_none() && arguments.has(Choice::Output) {
        return Err(arguments.wrong("-o needs the number of a history"));
    }
    let mut window = Window::new(Input::open(file)?);
    // a record more than there may be is refused unread
    window.fill((RECORD_LIMIT + 1) * MOST_HEADED)?;
    let records = window.rest();
    let refused = |refusal| refused(window.name(), records, refusal);
    match number {
        Some(number) => give(arguments, &history(records, number).map_err(refused)?)?,
        None => list(arguments, records).map_err(|failure| match failure {
            Unlisted::Refused(refusal) => refused(refusal),
            Unlisted::Failed(failure) => failure,
        })?,
    }
    Ok(Status::Good)
}

/// A refusal: of a record, at its place, of how many there are, or of the number.
fn refused(file: &str, records: &[u8], refusal: Refusal) -> Failure {
    let read: usize = pieces(records)
        .iter()
        .take(RECORD_LIMIT)
        .map(|record| record.len())
        .sum();
    let rest = records.get(read..).unwrap_or_default();
    let is_read = rest.is_empty() || calls::read(rest).is_ok();
    match refusal {
        Refusal::OverALimit if is_read => {
            Failure::Refused(format!("{file}: 5, 1 to {RECORD_LIMIT} records are taken"))
        }
        Refusal::PastTheLast => Failure::refused(file, refusal),
        _ => Failure::at(file, read as u64, refusal),
    }
}

/// Why there is no list.
enum Unlisted {
    Refused(Refusal),
    Failed(Failure),
}

/// Every history's number, with the positions of its records from 0. Each is held to the
/// library's bytes of that number.
fn list(arguments: &Arguments, records: &[u8]) -> Result<(), Unlisted> {
    history(records, 0).map_err(Unlisted::Refused)?;
    let records = pieces(records);
    let whole = records.concat();
    let mut lines = Vec::new();
    for number in 0.. {
        let bytes = match history(&whole, number) {
            Ok(bytes) => bytes,
            Err(Refusal::PastTheLast) => break,
            Err(refusal) => return Err(Unlisted::Refused(refusal)),
        };
        let positions = positions(number, records.len() as u64);
        let spelled = positions
            .iter()
            .filter_map(|position| records.get(*position));
        if spelled.copied().collect::<Vec<_>>().concat() != bytes {
            let line = format!("history {number} is another than its positions say");
            return Err(Unlisted::Failed(Failure::Refused(line)));
        }
        lines.push(match arguments.is_json() {
            true => json(number, &positions),
            false => text(number, &positions),
        });
    }
    if !arguments.is_json() {
        let count = words::count(lines.len() as u64, "history", "histories");
        let of = words::count(records.len() as u64, "record", "records");
        lines.insert(0, format!("{count} of {of}").into_bytes());
    }
    answer::lines(lines).map_err(Unlisted::Failed)
}

/// The positions of the records of a history: shorter ones come first, and those of a length
/// count up, the leftmost position being the highest digit.
fn positions(number: u64, records: u64) -> Vec<usize> {
    let (mut rest, mut of_length) = (number, 1);
    let mut length = 0;
    while rest >= of_length && length < LENGTH_LIMIT {
        rest -= of_length;
        of_length *= records;
        length += 1;
    }
    let mut positions = Vec::new();
    for _ in 0..length {
        of_length /= records.max(1);
        positions.push((rest / of_length.max(1)) as usize);
        rest %= of_length.max(1);
    }
    positions
}

fn text(number: u64, positions: &[usize]) -> Vec<u8> {
    let positions: Vec<String> = positions.iter().map(usize::to_string).collect();
    let positions = match positions.as_slice() {
        [] => "none".into(),
        _ => positions.join(" "),
    };
    format!("{number}: {positions}").into_bytes()
}

fn json(number: u64, positions: &[usize]) -> Vec<u8> {
    let positions = positions
        .iter()
        .map(|position| Json::number(*position as u64));
    let members = [
        ("number", Json::number(number)),
        ("records", Json::list(positions)),
    ];
    Json::object(members).into_bytes()
}
