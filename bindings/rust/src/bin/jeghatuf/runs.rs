//! `snapshot`, `restore`, `downgrade`, `with-offset`, `without-offset`, `view`: answers that
//! are records.

use std::ffi::OsStr;

use jeghatuf::{Image, Refusal, Stopped, calls};

use crate::answer::{self, Records};
use crate::arguments::Arguments;
use crate::failure::{Failure, Outcome, Status, numbered, say};
use crate::input::{Input, Window};
use crate::json::Json;
use crate::run;
use crate::source::{MOST_HEADED, Source, about, pieces, restored};
use crate::words;

pub fn snapshot(arguments: &Arguments) -> Outcome {
    let [file] = arguments.exactly()?;
    let source = Source::open(file, arguments.capacity())?;
    let snapshot = source.snapshot()?;
    give(arguments, &snapshot)?;
    Ok(source.status)
}

/// Gives records as lines, or as the bytes of a file.
pub fn give(arguments: &Arguments, run: &[u8]) -> Result<(), Failure> {
    let mut records = Records::lines(arguments)?;
    records.put(run)?;
    records.finish()
}

pub fn restore(arguments: &Arguments) -> Outcome {
    let [file] = arguments.exactly()?;
    let input = Input::open(file)?;
    let name = input.name.clone();
    let image = restored(Window::new(input), arguments.capacity())?;
    let snapshot = image.snapshot();
    let snapshot = snapshot.map_err(|refusal| Failure::refused(&name, refusal))?;
    let behind = jeghatuf::without_offset(&snapshot);
    let (records, _) = behind.map_err(|stopped| Failure::stopped(&name, stopped))?;
    give(arguments, &records)?;
    Ok(Status::Good)
}

pub fn downgrade(arguments: &Arguments) -> Outcome {
    let [level, file] = arguments.exactly()?;
    let level: i16 = arguments.number(level, "level")?;
    let source = Source::open(file, arguments.capacity())?;
    let listing = source.image.downgrade(level);
    let listing = listing.map_err(|refusal| source.refused(refusal))?;
    let mut image = source.image.clone();
    let pass = applied(&mut image, &listing);
    let second = image.downgrade(level);
    let second = second.map_err(|refusal| source.refused(refusal))?;
    let is_done = pass.is_ok() && second.is_empty();
    let is_json = arguments.is_json() && !arguments.is_piped();
    if !is_json || arguments.output().is_some() {
        give(arguments, &listing)?;
    }
    if is_json {
        answer::json(downgrade_json(level, &listing, pass, &second))?;
    } else {
        downgrade_words(arguments, level, &listing, pass, &second)?;
    }
    Ok(source.status.and(Status::refused_if(!is_done)))
}

/// Applies records one after the other, from the image's offset on: which one is refused.
fn applied(image: &mut Image, listing: &[u8]) -> Result<(), (usize, Refusal)> {
    let offset = image.log_offset().map_err(|refusal| (0, refusal))?;
    for ((number, record), place) in pieces(listing).into_iter().enumerate().zip(1..) {
        let offset = offset.saturating_add(place);
        image
            .apply(offset, record)
            .map_err(|refusal| (number, refusal))?;
    }
    Ok(())
}

fn downgrade_json(
    level: i16,
    listing: &[u8],
    pass: Result<(), (usize, Refusal)>,
    second: &[u8],
) -> Json {
    let records = |run| Json::list(pieces(run).into_iter().map(Json::record));
    let refused = pass.err().map(|(number, refusal)| {
        Json::object([
            ("record", Json::number(number as u64)),
            ("number", Json::number(refusal.number())),
            ("says", Json::text(&refusal.to_string())),
        ])
    });
    Json::object([
        ("level", Json::number(level)),
        ("records", records(listing)),
        ("refused", Json::of(refused, |refused| refused)),
        ("second", records(second)),
    ])
}

/// Says behind the listing how a pass over it ends: on standard error, where standard output
/// has bytes.
fn downgrade_words(
    arguments: &Arguments,
    level: i16,
    listing: &[u8],
    pass: Result<(), (usize, Refusal)>,
    second: &[u8],
) -> Result<(), Failure> {
    let records = pieces(listing);
    let count = words::count(records.len() as u64, "record", "records");
    let line = match pass {
        Err((number, refusal)) => {
            let about = about(records.get(number).copied().unwrap_or_default());
            format!(
                "{count} for level {level}; record {number} of them, {about}, is refused: {}",
                numbered(refusal)
            )
        }
        Ok(()) if !second.is_empty() => {
            let left = words::count(pieces(second).len() as u64, "record", "records");
            format!("{count} for level {level}; applied in order, the second listing has {left}")
        }
        Ok(()) if records.is_empty() => format!("nothing is to be applied for level {level}"),
        Ok(()) => format!(
            "{count} for level {level}; applied in order none is refused, and the second listing is empty"
        ),
    };
    if arguments.is_piped() {
        say(&line);
        return Ok(());
    }
    answer::line(&format!("# {line}"))
}

/// The bytes of a log offset at the start of a snapshot.
const OFFSET_RECORD: usize = 14;

pub fn with_offset(arguments: &Arguments) -> Outcome {
    let [offset, file] = arguments.exactly()?;
    let offset: i64 = arguments.number(offset, "log offset")?;
    let mut is_first = true;
    convert(arguments, file, |chunk| {
        let new = jeghatuf::with_offset(chunk, offset)?;
        let head = if is_first { 0 } else { OFFSET_RECORD };
        is_first = false;
        Ok(new.get(head..).unwrap_or_default().to_vec())
    })?;
    Ok(Status::Good)
}

pub fn without_offset(arguments: &Arguments) -> Outcome {
    let [file] = arguments.exactly()?;
    let mut first = None;
    let is_beside = convert(arguments, file, |chunk| {
        if first.is_none() {
            let (old, offset) = jeghatuf::without_offset(chunk)?;
            first = Some(offset);
            return Ok(old);
        }
        // behind an offset of its own, a part that has one is refused as in the whole
        let head = jeghatuf::with_offset(&[], 0)?;
        let part = [head.as_slice(), chunk].concat();
        let old = jeghatuf::without_offset(&part).map_err(|stopped| Stopped {
            place: stopped.place.map(|place| place.saturating_sub(head.len())),
            ..stopped
        });
        old.map(|(old, _)| old)
    })?;
    let offset = first.unwrap_or(jeghatuf::NO_OFFSET);
    if !is_beside {
        say(&format!("log offset: {offset}"));
    } else if arguments.is_json() {
        answer::json(Json::object([("offset", Json::number(offset))]))?;
    } else {
        answer::line(&format!("log offset: {offset}"))?;
    }
    Ok(Status::Good)
}

/// Converts a file, part by part, each of whole records. Whether standard output is free for
/// words.
fn convert(
    arguments: &Arguments,
    file: &OsStr,
    mut part: impl FnMut(&[u8]) -> Result<Vec<u8>, Stopped>,
) -> Result<bool, Failure> {
    let mut window = Window::new(Input::open(file)?);
    let mut records = Records::bytes(arguments)?;
    let is_beside = records.is_beside();
    let mut is_first = true;
    loop {
        window.fill(MOST_HEADED)?;
        let whole = whole_records(&window);
        let chunk = window.rest().get(..whole).unwrap_or_default();
        if chunk.is_empty() && !is_first {
            break;
        }
        match part(chunk) {
            Ok(bytes) => records.put(&bytes)?,
            Err(stopped) => {
                records.flush()?;
                let place = stopped.place.map(|place| place + window.place as usize);
                return Err(Failure::stopped(
                    window.name(),
                    Stopped { place, ..stopped },
                ));
            }
        }
        is_first = false;
        window.pass(whole);
    }
    records.finish()?;
    Ok(is_beside)
}

/// How many bytes of a window are whole records by their headers; at the end of the file all
/// that is left.
fn whole_records(window: &Window) -> usize {
    let rest = window.rest();
    if window.is_whole() {
        return rest.len();
    }
    let mut end = 0;
    while let Some(length) = rest.get(end..).and_then(run::length) {
        if rest.len() - end < length {
            break;
        }
        end += length;
    }
    end
}

/// Above the limit of a prefix. A longer one is cut to it, and refused as the whole would be.
const MOST_PREFIX: usize = 4_096;

pub fn view(arguments: &Arguments) -> Outcome {
    let Some((file, prefixes @ [_, ..])) = arguments.words.split_last() else {
        return Err(arguments.wrong("a prefix or more, and a file expected"));
    };
    let mut list = Vec::new();
    for prefix in prefixes {
        let prefix = prefix.as_encoded_bytes();
        let prefix = prefix.get(..MOST_PREFIX).unwrap_or(prefix);
        let length = u16::try_from(prefix.len()).unwrap_or(u16::MAX);
        list.extend(length.to_be_bytes());
        list.extend(prefix);
    }
    let source = Source::open(file, arguments.capacity())?;
    // what a viewer sees is shorter than the image
    let mut out = vec![0; arguments.capacity()];
    let written = calls::view_snapshot(source.image.as_bytes(), &list, &mut out);
    let refused = |number| Failure::refused("the prefixes", Refusal::from_number(number));
    let written = written.map_err(refused)?;
    out.truncate(written);
    give(arguments, &out)?;
    Ok(source.status)
}
