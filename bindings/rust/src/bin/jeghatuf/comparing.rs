//! `diff` and `compare`: two files beside each other.

use std::ffi::OsStr;

use jeghatuf::{Comparison, Image, Kind, Refusal, compare as compare_runs};

use crate::answer;
use crate::arguments::Arguments;
use crate::differences::{Difference, differences};
use crate::failure::{Failure, Outcome, Status, numbered};
use crate::input::Input;
use crate::json::Json;
use crate::progress;
use crate::run;
use crate::source::{Place, Source, about};
use crate::words;

/// The two files, of which one at most is standard input.
fn both(arguments: &Arguments) -> Result<[&OsStr; 2], Failure> {
    let [first, second] = arguments.exactly()?;
    if first == "-" && second == "-" {
        return Err(arguments.wrong("standard input can be read once"));
    }
    Ok([first, second])
}

pub fn diff(arguments: &Arguments) -> Outcome {
    let [first, second] = both(arguments)?;
    let first = Source::open(first, arguments.capacity())?;
    let second = Source::open(second, arguments.capacity())?;
    let snapshots = (first.snapshot()?, second.snapshot()?);
    let found = differences(&snapshots.0, &snapshots.1);
    if arguments.is_json() {
        answer::lines(
            found
                .iter()
                .map(|difference| difference.json().into_bytes()),
        )?;
    } else {
        let summary = match found.len() {
            0 => "no difference".into(),
            count => words::count(count as u64, "difference", "differences"),
        };
        answer::lines(found.iter().map(Difference::words).chain([summary]))?;
    }
    let status = first.status.and(second.status);
    Ok(status.and(Status::refused_if(!found.is_empty())))
}

pub fn compare(arguments: &Arguments) -> Outcome {
    let [first, second] = both(arguments)?;
    let (one, other) = (log(first)?, log(second)?);
    let compared = progress::timed("comparing", || {
        compare_runs(arguments.capacity(), &one, &other)
    });
    let compared = compared.map_err(|refusal| Failure::refused("--at", refusal))?;
    let parting = Parting::of(compared, &one, &other)?;
    if arguments.is_json() {
        answer::json(parting.json()?)?;
    } else {
        answer::lines(parting.lines()?)?;
    }
    Ok(Status::refused_if(
        parting.is_parted || parting.is_refused(),
    ))
}

/// The bytes of a log. A snapshot is none: all of it would be refused at its start.
fn log(file: &OsStr) -> Result<Vec<u8>, Failure> {
    let input = Input::open(file)?;
    let name = input.name.clone();
    let run = input.whole()?;
    if run.first() == Some(&Kind::LogOffset.number()) {
        let line = "begins with a log offset, as a snapshot does; for snapshots take diff";
        return Err(Failure::unusable(name, line));
    }
    Ok(run)
}

/// How a run stands at a record.
enum Standing {
    Ended,
    /// Its record there, and what Apply says to it.
    Record {
        place: Place,
        kind: &'static str,
        about: String,
        refusal: Option<Refusal>,
    },
}

/// Where two runs part, or stop alike.
struct Parting {
    is_parted: bool,
    count: u64,
    first: Standing,
    second: Standing,
    /// The images behind the records where they part.
    images: [Image; 2],
}

impl Parting {
    fn of(compared: Comparison, one: &[u8], other: &[u8]) -> Result<Self, Failure> {
        let Comparison {
            parted,
            count,
            first,
            second,
        } = compared;
        let mut images = [first, second];
        let [first, second] = &images;
        // where the images differ already, the last records applied did it
        let is_behind = parted && count > 0 && !found(first, second)?.is_empty();
        let number = if is_behind { count - 1 } else { count };
        let [ours, theirs] = &mut images;
        let first = Standing::at(one, number, ours, is_behind);
        let second = Standing::at(other, number, theirs, is_behind);
        Ok(Self {
            is_parted: parted,
            count,
            first,
            second,
            images,
        })
    }

    /// Whether a run was refused, so that what is behind it was not compared.
    fn is_refused(&self) -> bool {
        let both = [&self.first, &self.second];
        both.iter().any(
            |standing| matches!(standing, Standing::Record { refusal, .. } if refusal.is_some()),
        )
    }

    fn differences(&self) -> Result<[Vec<u8>; 2], Failure> {
        let [first, second] = &self.images;
        Ok([snapshot(first)?, snapshot(second)?])
    }

    fn lines(&self) -> Result<Vec<String>, Failure> {
        let applied = words::count(self.count, "record", "records");
        if !self.is_parted {
            return Ok(vec![format!(
                "they agree: {applied} applied, then {}",
                self.first.words()
            )]);
        }
        let number = match (&self.first, &self.second) {
            (Standing::Record { place, .. }, _) | (_, Standing::Record { place, .. }) => {
                place.number
            }
            _ => self.count,
        };
        let mut lines = vec![
            format!("they part at record {number}"),
            format!("first: {}", self.first.words()),
            format!("second: {}", self.second.words()),
        ];
        let [first, second] = self.differences()?;
        let found = differences(&first, &second);
        let found = found.iter().filter(|difference| !difference.is_offset());
        let found: Vec<String> = found.map(Difference::words).collect();
        lines.push(match found.len() {
            0 => "then no entry differs".into(),
            1 => "then 1 entry differs:".into(),
            count => format!("then {count} entries differ:"),
        });
        lines.extend(found);
        Ok(lines)
    }

    fn json(&self) -> Result<Json, Failure> {
        let [first, second] = self.differences()?;
        let found = differences(&first, &second);
        let found = found.iter().filter(|difference| !difference.is_offset());
        Ok(Json::object([
            ("agree", Json::bool(!self.is_parted)),
            ("count", Json::number(self.count)),
            ("first", self.first.json()),
            ("second", self.second.json()),
            ("differences", Json::list(found.map(Difference::json))),
        ]))
    }
}

fn snapshot(image: &Image) -> Result<Vec<u8>, Failure> {
    let snapshot = image.snapshot();
    snapshot.map_err(|refusal| Failure::Refused(numbered(refusal)))
}

/// What two images differ in apart from the log offset, in words.
fn found(first: &Image, second: &Image) -> Result<Vec<String>, Failure> {
    let (first, second) = (snapshot(first)?, snapshot(second)?);
    let found = differences(&first, &second);
    let found = found.iter().filter(|difference| !difference.is_offset());
    Ok(found.map(Difference::words).collect())
}

impl Standing {
    /// How a run stands at the record of a number. Unless the image is behind it already,
    /// the record is applied.
    fn at(run: &[u8], number: u64, image: &mut Image, is_behind: bool) -> Self {
        let mut byte = 0;
        for _ in 0..number {
            let rest = run.get(byte..).unwrap_or_default();
            byte += run::length(rest).unwrap_or(rest.len());
        }
        let rest = run.get(byte..).unwrap_or_default();
        if rest.is_empty() {
            return Standing::Ended;
        }
        let record = run::length(rest).and_then(|length| rest.get(..length));
        let record = record.unwrap_or(rest);
        let refusal = if is_behind {
            None
        } else {
            image.apply(number.cast_signed(), record).err()
        };
        let kind = record.first().and_then(|kind| crate::table::kind(*kind));
        Standing::Record {
            place: Place::new(number, byte as u64),
            kind: kind.map_or("unknown", |shape| shape.name),
            about: about(record),
            refusal,
        }
    }

    fn words(&self) -> String {
        let Standing::Record {
            place,
            kind,
            about,
            refusal,
        } = self
        else {
            return "the end".into();
        };
        let Place { number, byte } = place;
        let verdict = refusal.map_or("0, accepted".into(), numbered);
        format!("record {number} at byte {byte}, {kind}, {about}: {verdict}")
    }

    fn json(&self) -> Json {
        let Standing::Record {
            place,
            kind,
            about,
            refusal,
        } = self
        else {
            return Json::null();
        };
        Json::object([
            ("record", Json::number(place.number)),
            ("byte", Json::number(place.byte)),
            ("kind", Json::text(kind)),
            ("subject", Json::text(about)),
            ("verdict", Json::number(refusal.map_or(0, Refusal::number))),
            (
                "says",
                Json::text(&refusal.map_or("accepted".into(), |refusal| refusal.to_string())),
            ),
        ])
    }
}
