//! The freeze of a name from a run of records, held to the reference's
//! `topic_freeze` of the image after them, and where the run restores to the
//! lookup on the restored image.

use std::collections::BTreeSet;

use krabka_metadata::{MetadataImage, MetadataRecord};
use oracle::image::MOST_CAPACITY;
use oracle::shrink::least_run;
use oracle::snapshot::{next, snapshot, start, starting};
use oracle::verdict::offset_leaves_i64;
use uuid::Uuid;
use wire::{
    OVER_A_LIMIT, Random, TOO_SHORT, WRONG_FIELD, encoded, encoded_offset, field, hex, read,
};

use super::drawn::Drawn;
use super::reference::Reference;
use super::runs::to_restore;
use crate::images::{Compared, Tally, frozen_names};
use crate::{freeze, log_freeze, restore};

/// The most bytes of a name.
const NAME_LIMIT: usize = 255;
/// The log offset that is put before a run that has none.
const OFFSET: i64 = 7;
/// The most records of a short run.
const SHORT: u32 = 3;

type Answer = Result<usize, (u8, Option<u64>)>;

/// Compares on the records of the history of a seed, as they are and as they
/// read, on its snapshot, and on runs made of them that no history has.
pub fn compare_logs(tally: &mut Tally, seed: u64) -> Compared {
    let mut random = Random::new(seed ^ 0x000F_4EE2);
    let drawn = Drawn::of(&mut random, seed);
    let mut reference = Reference::new();
    for input in &drawn.inputs {
        reference.take(input, drawn.validated);
    }
    let whole = drawn.inputs.iter().filter(|input| is_whole(input));
    let whole: Vec<u8> = whole.flatten().copied().collect();
    let snapshot = snapshot(&reference.observed());
    let mut runs = to_restore(&mut random, &snapshot, &drawn.inputs);
    runs.extend([starting(OFFSET, &whole), whole]);
    runs.iter().try_for_each(|run| {
        compare_run(tally, run).map_err(|difference| {
            let compare = |run: &[u8]| compare_run(&mut Tally::default(), run);
            least_run(difference, run, compare).1
        })
    })
}

/// Compares on every run of a few freezes and thaws, and on runs with known
/// faults.
pub fn compare_named_logs(tally: &mut Tally) -> Compared {
    let records = freezes();
    for length in 0..=SHORT {
        for number in 0..records.len().pow(length) {
            let run: Vec<u8> = chosen(&records, length, number).concat();
            compare_run(tally, &run)?;
        }
    }
    let runs = faulty();
    runs.iter().try_for_each(|run| compare_run(tally, run))
}

/// Freezes and thaws of scopes that begin each other, of both patterns.
fn freezes() -> Vec<Vec<u8>> {
    let scopes: [&[u8]; 4] = [b"", b"ro", b"room", b"__"];
    let mut records = Vec::new();
    for scope in scopes {
        for pattern in 0..2 {
            for frozen in 0..2 {
                records.push(frozen_record(scope, pattern, frozen));
            }
        }
    }
    records
}

/// The records of a number, leftmost first.
fn chosen(records: &[Vec<u8>], length: u32, number: usize) -> Vec<Vec<u8>> {
    let count = records.len();
    let places = (0..length).rev().map(|place| count.pow(place));
    let picked = places.map(|unit| records[number / unit % count].clone());
    picked.collect()
}

/// A freeze's bytes; its reason tells it from others of its scope.
fn frozen_record(scope: &[u8], pattern: u8, frozen: u8) -> Vec<u8> {
    let fields = [
        field(1, scope),
        field(2, &[pattern]),
        field(3, &[frozen]),
        field(4, b"reason"),
        field(5, b"who"),
        field(6, &5_i64.to_be_bytes()),
        field(7, &[0; 16]),
        field(8, b"key"),
        field(9, b"signature"),
    ];
    field(18, &fields.concat())
}

/// No records; kind 26 alone, twice, below -1, and behind another record; a
/// record that is torn, or of no kind, before and behind a kind 26.
fn faulty() -> Vec<Vec<u8>> {
    let (offset, below) = (encoded_offset(OFFSET), encoded_offset(-2));
    let frozen = frozen_record(b"room", 1, 1);
    let torn = frozen[..frozen.len() - 1].to_vec();
    let unknown = field(27, b"");
    [
        vec![],
        vec![&offset],
        vec![&below],
        vec![&offset, &offset],
        vec![&offset, &frozen, &offset],
        vec![&frozen, &offset],
        vec![&frozen, &below],
        vec![&frozen, &torn],
        vec![&offset, &frozen, &torn],
        vec![&frozen, &unknown, &offset],
        vec![&frozen, &offset, &unknown],
        vec![&unknown],
    ]
    .map(|parts: Vec<&Vec<u8>>| parts.into_iter().flatten().copied().collect())
    .to_vec()
}

/// All names on one run, and bad ones.
fn compare_run(tally: &mut Tally, run: &[u8]) -> Compared {
    let after = after(run);
    let image = after.as_ref().ok();
    let mut names: BTreeSet<Vec<u8>> = BTreeSet::new();
    let near = frozen_names(image.unwrap_or(&MetadataImage::new(Uuid::nil())));
    names.extend(near.into_iter().map(String::into_bytes));
    names.extend(["", "r", "room", "room-7", "__room"].map(|name| name.as_bytes().to_vec()));
    names.extend([255, 256].map(|length| vec![b'n'; length]));
    names.extend([vec![0xff], vec![0xff; 256], b"room\xc3".to_vec()]);
    for name in names {
        compare_name(tally, run, &name, after.as_ref())
            .map_err(|difference| format!("{difference}\nof the run {}", hex(run)))?;
    }
    match image {
        Some(image) => compare_restored(tally, run, image)
            .map_err(|difference| format!("{difference}\nof the run {}", hex(run))),
        None => Ok(()),
    }
}

/// One name, with an output of the record's length, one byte less and more.
fn compare_name(
    tally: &mut Tally,
    run: &[u8],
    name: &[u8],
    after: Result<&MetadataImage, &(u8, u64)>,
) -> Compared {
    let record = expected(name, after);
    let length = record.as_ref().map_or(0, Vec::len);
    for room in BTreeSet::from([0, length.saturating_sub(1), length, length + 40]) {
        let before: Vec<u8> = (0..room).map(|place| place as u8 ^ 0xa5).collect();
        let (answer, end) = emitted(&record, &before);
        let mut out = before;
        let said = log_freeze(run, name, &mut out);
        tally.count("freeze from a run", told(&answer));
        if (said, &out) != (answer, &end) {
            return Err(format!(
                "the freeze of {} is {said:?}, expected is {answer:?}; the output: {}",
                hex(name),
                hex(&out)
            ));
        }
    }
    Ok(())
}

/// Where the run restores, with kind 26 put before one that has none, the
/// lookup on the restored image says the same.
fn compare_restored(tally: &mut Tally, run: &[u8], image: &MetadataImage) -> Compared {
    let mut buffer = vec![0; MOST_CAPACITY];
    let started = match start(run) {
        Ok(_) => run.to_vec(),
        Err(_) => starting(OFFSET, run),
    };
    if restore(&mut buffer, &started).is_err() {
        tally.count("restored image beside it", "not restored");
        return Ok(());
    }
    for name in frozen_names(image) {
        let (mut one, mut other) = (vec![0x5a; 1_700], vec![0x5a; 1_700]);
        let answers = [
            log_freeze(run, name.as_bytes(), &mut one).map_err(|(number, _)| number),
            freeze(&buffer, name.as_bytes(), &mut other),
        ];
        tally.count("restored image beside it", "asked");
        if answers[0] != answers[1] || one != other {
            return Err(format!(
                "the freeze of {name:?} from the run and from the image: {answers:?}"
            ));
        }
    }
    Ok(())
}

/// The reference's image after the records, or the first at fault and its
/// place. An offset sum that leaves i64 is passed over: it is no freeze, and the
/// reference has no answer to it.
fn after(run: &[u8]) -> Result<MetadataImage, (u8, u64)> {
    let mut image = MetadataImage::new(Uuid::nil());
    let mut place = start(run).map_or(0, |(_, used)| used);
    while place < run.len() {
        let (record, used) = next(&run[place..]).map_err(|number| (number, place as u64))?;
        if !offset_leaves_i64(&image, &record) {
            image.apply(&record);
        }
        place += used;
    }
    Ok(image)
}

/// The record's bytes, none where there is none; or the refusal before the one
/// for the output.
fn expected(
    name: &[u8],
    after: Result<&MetadataImage, &(u8, u64)>,
) -> Result<Vec<u8>, (u8, Option<u64>)> {
    let text = std::str::from_utf8(name).map_err(|_| (WRONG_FIELD, None))?;
    if name.len() > NAME_LIMIT {
        return Err((OVER_A_LIMIT, None));
    }
    let image = after.map_err(|(number, place)| (*number, Some(*place)))?;
    let frozen = image.topic_freeze(text).cloned();
    Ok(frozen.map_or(Vec::new(), |freeze| {
        encoded(&MetadataRecord::V1TopicFreeze(freeze))
    }))
}

/// The answer, and the output's end.
fn emitted(record: &Result<Vec<u8>, (u8, Option<u64>)>, before: &[u8]) -> (Answer, Vec<u8>) {
    let mut end = before.to_vec();
    let record = match record {
        Ok(record) => record,
        Err(refusal) => return (Err(*refusal), end),
    };
    match end.get_mut(..record.len()) {
        Some(place) => place.copy_from_slice(record),
        None => return (Err((TOO_SHORT, None)), end),
    }
    (Ok(record.len()), end)
}

fn told(answer: &Answer) -> String {
    match answer {
        Ok(0) => "0, absent".to_owned(),
        Ok(_) => "0, found".to_owned(),
        Err((number, _)) => number.to_string(),
    }
}

fn is_whole(input: &[u8]) -> bool {
    read(input) == Ok(input.len())
}
