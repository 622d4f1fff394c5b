//! `topic`, `partition`, `broker`, `freeze`, `throttle`, `short`, `offset`: what an image
//! says of one thing.

use std::ffi::OsStr;

use jeghatuf::shapes::{Partition, TopicFreeze};
use jeghatuf::{DEFAULT_NODE, Image, Kind, MOST_RECORD, Record, Refusal, ThrottleKind, calls};

use crate::answer;
use crate::arguments::{Arguments, Choice};
use crate::failure::{Failure, Outcome, Status};
use crate::input::Input;
use crate::json::Json;
use crate::source::{Source, pieces};
use crate::spell::{self, Style};
use crate::words;

/// What a lookup by a word writes, if it finds something. What it refuses is the word.
fn found(
    word: &OsStr,
    lookup: impl Fn(&mut [u8]) -> calls::Answer,
) -> Result<Option<Vec<u8>>, Failure> {
    let mut out = vec![0; MOST_RECORD];
    let refused = |number| Failure::refused(&shown(word), Refusal::from_number(number));
    let length = lookup(&mut out).map_err(refused)?;
    out.truncate(length);
    Ok(Some(out).filter(|record| !record.is_empty()))
}

/// A record as `show` has it.
fn text(record: &[u8]) -> String {
    let mut out = Vec::new();
    spell::record(&mut out, Style::Text, record);
    String::from_utf8_lossy(&out).into_owned()
}

/// Prints a record that was found, or says that there is none.
fn give(
    arguments: &Arguments,
    name: &'static str,
    record: Option<&[u8]>,
    none: &str,
) -> Result<(), Failure> {
    if arguments.is_json() {
        return answer::json(Json::object([(name, Json::of(record, Json::record))]));
    }
    match record {
        Some(record) => answer::line(&text(record)),
        None => answer::line(none),
    }
}

fn shown(word: &OsStr) -> String {
    words::name(&word.to_string_lossy())
}

pub fn topic(arguments: &Arguments) -> Outcome {
    let [word, file] = arguments.exactly()?;
    let id = match arguments.has(Choice::Id) {
        true => Some(id_of(arguments, word)?),
        false => None,
    };
    let source = Source::open(file, arguments.capacity())?;
    let image = source.image.as_bytes();
    let record = found(word, |out| match &id {
        Some(id) => calls::topic_by_id(image, id, out),
        None => calls::topic(image, word.as_encoded_bytes(), out),
    })?;
    let Some(record) = record else {
        let none = format!("no topic {}", shown(word));
        give(arguments, "topic", None, &none)?;
        return Ok(source.status);
    };
    let partitions = partitions(&source, &record)?;
    if arguments.is_json() {
        let numbers = partitions.iter().map(|number| Json::number(*number));
        let members = [
            ("topic", Json::record(&record)),
            ("partitions", Json::list(numbers)),
        ];
        answer::json(Json::object(members))?;
    } else {
        answer::lines([text(&record), sheets(&partitions)])?;
    }
    Ok(source.status)
}

fn id_of(arguments: &Arguments, word: &OsStr) -> Result<[u8; 16], Failure> {
    let text = word.to_str().filter(|text| text.len() == 32);
    let number = text.filter(|text| !text.starts_with('+'));
    let number = number.and_then(|text| u128::from_str_radix(text, 16).ok());
    let wrong = || arguments.wrong(&format!("{} is no id of 32 hex digits", shown(word)));
    number.map(u128::to_be_bytes).ok_or_else(wrong)
}

/// The numbers of a topic's partitions.
fn partitions(source: &Source, topic: &[u8]) -> Result<Vec<i32>, Failure> {
    let record = Record::read(topic).map_err(|refusal| source.refused(refusal))?;
    let name = record.field(1);
    let snapshot = source.snapshot()?;
    let of_topic = |record: &Record| record.field(1) == name;
    let records = pieces(&snapshot)
        .into_iter()
        .filter_map(|bytes| Record::read(bytes).ok());
    let partitions = records
        .filter(of_topic)
        .filter_map(|record| Partition::of(&record));
    Ok(partitions.map(|partition| partition.partition).collect())
}

/// Which sheets a plan has, as a remark.
fn sheets(partitions: &[i32]) -> String {
    let has = |number| {
        if partitions.contains(&number) {
            "yes"
        } else {
            "no"
        }
    };
    let further: Vec<String> = partitions
        .iter()
        .filter(|number| !(0..=1).contains(*number))
        .map(i32::to_string)
        .collect();
    let further = match further.as_slice() {
        [] => String::new(),
        _ => format!(", further partitions {}", further.join(" ")),
    };
    format!("# room list {}, load sheet {}{further}", has(0), has(1))
}

pub fn partition(arguments: &Arguments) -> Outcome {
    let [name, number, file] = arguments.exactly()?;
    let number: i32 = arguments.number(number, "partition's number")?;
    let source = Source::open(file, arguments.capacity())?;
    let image = source.image.as_bytes();
    let record = found(name, |out| {
        calls::partition(image, name.as_encoded_bytes(), number, out)
    })?;
    let none = format!("no {}", words::partition(number, &name.to_string_lossy()));
    give(arguments, "partition", record.as_deref(), &none)?;
    Ok(source.status)
}

pub fn broker(arguments: &Arguments) -> Outcome {
    let [node, file] = arguments.exactly()?;
    let number: u64 = arguments.number(node, "broker's node")?;
    let source = Source::open(file, arguments.capacity())?;
    let record = found(node, |out| {
        calls::broker(source.image.as_bytes(), number, out)
    })?;
    let none = format!("no broker {number}");
    give(arguments, "broker", record.as_deref(), &none)?;
    Ok(source.status)
}

pub fn freeze(arguments: &Arguments) -> Outcome {
    let [name, file] = arguments.exactly()?;
    if arguments.has(Choice::Log) {
        let record = freeze_of_log(name, file)?;
        freeze_words(arguments, name, record.as_deref())?;
        return Ok(Status::Good);
    }
    let source = Source::open(file, arguments.capacity())?;
    let record = found(name, |out| {
        calls::freeze(source.image.as_bytes(), name.as_encoded_bytes(), out)
    })?;
    freeze_words(arguments, name, record.as_deref())?;
    Ok(source.status)
}

/// The freeze of a name from a run of records alone.
fn freeze_of_log(name: &OsStr, file: &OsStr) -> Result<Option<Vec<u8>>, Failure> {
    let input = Input::open(file)?;
    let file = input.name.clone();
    let run = input.whole()?;
    let (mut out, mut value) = (vec![0; MOST_RECORD], [u64::MAX]);
    let answer = calls::log_freeze(&run, name.as_encoded_bytes(), &mut out, &mut value);
    let [value] = value;
    if let Err(number) = answer {
        let refusal = Refusal::from_number(number);
        return Err(match value {
            u64::MAX => Failure::refused(&shown(name), refusal),
            place => Failure::at(&file, place, refusal),
        });
    }
    out.truncate(usize::try_from(value).unwrap_or(0));
    Ok(Some(out).filter(|record| !record.is_empty()))
}

/// Whether a name is frozen: by whom, since when and why.
fn freeze_words(arguments: &Arguments, name: &OsStr, record: Option<&[u8]>) -> Result<(), Failure> {
    let freeze = record.and_then(|record| Record::read(record).ok());
    let freeze = freeze.as_ref().and_then(TopicFreeze::of);
    if arguments.is_json() {
        let since = |freeze: &TopicFreeze| Json::text(&words::moment(freeze.set_at_ms));
        let members = [
            ("name", Json::text(&name.to_string_lossy())),
            ("freeze", Json::of(record, Json::record)),
            ("since", Json::of(freeze.as_ref(), since)),
        ];
        return answer::json(Json::object(members));
    }
    let name = shown(name);
    let Some(freeze) = freeze else {
        return answer::line(&format!("{name} is not frozen"));
    };
    let scope = words::scope(freeze.pattern_type, &freeze.scope);
    answer::lines([
        format!("{name} is frozen, as {scope} is"),
        format!("who: {}", words::plain(&freeze.set_by)),
        format!(
            "since: {} ({} ms)",
            words::moment(freeze.set_at_ms),
            freeze.set_at_ms
        ),
        format!("why: {}", words::plain(&freeze.reason)),
    ])
}

/// The kinds of throttle, by name.
const THROTTLES: [(&str, ThrottleKind); 3] = [
    ("leader", ThrottleKind::Leader),
    ("follower", ThrottleKind::Follower),
    ("alter_log_dirs", ThrottleKind::AlterLogDirs),
];

pub fn throttle(arguments: &Arguments) -> Outcome {
    let words: Vec<&OsStr> = arguments
        .words
        .iter()
        .map(|word| word.as_os_str())
        .collect();
    let (node, kind, file) = match words.as_slice() {
        [node, file] => (*node, None, *file),
        [node, kind, file] => (*node, Some(*kind), *file),
        _ => return Err(arguments.wrong("a node, perhaps a kind, and a file expected")),
    };
    let node = match node.to_str() {
        Some("default") => DEFAULT_NODE,
        _ => arguments.number(node, "broker's node")?,
    };
    let is_asked = |name: &str| kind.is_none_or(|kind| kind == name);
    if !THROTTLES.iter().any(|(name, _)| is_asked(name)) {
        return Err(arguments.wrong("the kinds are leader, follower and alter_log_dirs"));
    }
    let source = Source::open(file, arguments.capacity())?;
    let mut rates = Vec::new();
    for (name, kind) in THROTTLES.iter().filter(|(name, _)| is_asked(name)) {
        let rate = source.image.throttle(node, *kind);
        rates.push((*name, rate.map_err(|refusal| source.refused(refusal))?));
    }
    throttle_words(arguments, node, rates)?;
    Ok(source.status)
}

fn throttle_words(
    arguments: &Arguments,
    node: u64,
    rates: Vec<(&'static str, Option<u64>)>,
) -> Result<(), Failure> {
    if arguments.is_json() {
        let rate = |(name, rate)| (name, Json::of::<u64>(rate, Json::number));
        let node = [("node", Json::number(node))];
        return answer::json(Json::object(
            node.into_iter().chain(rates.into_iter().map(rate)),
        ));
    }
    let broker = words::broker(node);
    answer::lines(rates.into_iter().map(|(name, rate)| match rate {
        Some(rate) => format!("{broker}, {name}: {rate} bytes a second"),
        None => format!("{broker}, {name}: none"),
    }))
}

pub fn short(arguments: &Arguments) -> Outcome {
    let [file] = arguments.exactly()?;
    let source = Source::open(file, arguments.capacity())?;
    let count = source.image.short_count();
    let count = count.map_err(|refusal| source.refused(refusal))? as u64;
    let snapshot = source.snapshot()?;
    let is_partition = |record: &&[u8]| record.first() == Some(&Kind::Partition.number());
    let partitions = pieces(&snapshot).into_iter().filter(is_partition);
    let partitions: Vec<&[u8]> = partitions.collect();
    let short = partitions.iter().filter(|record| is_short(record));
    if arguments.is_json() {
        let members = [
            ("short", Json::number(count)),
            ("partitions", Json::number(partitions.len() as u64)),
            (
                "records",
                Json::list(short.map(|record| Json::record(record))),
            ),
        ];
        answer::json(Json::object(members))?;
        return Ok(source.status);
    }
    let total = words::count(partitions.len() as u64, "partition", "partitions");
    let line = format!("short of in-sync replicas: {count} of {total}");
    answer::lines(short.map(|record| short_words(record)).chain([line]))?;
    Ok(source.status)
}

/// Whether a partition is short: an image of it alone says so.
fn is_short(record: &[u8]) -> bool {
    let capacity = jeghatuf::LEAST_CAPACITY + record.len();
    let run = jeghatuf::with_offset(record, jeghatuf::NO_OFFSET);
    let image = run.ok().and_then(|run| Image::restore(capacity, &run).ok());
    image.is_some_and(|image| image.short_count() == Ok(1))
}

fn short_words(record: &[u8]) -> String {
    let record = Record::read(record).ok();
    let Some(of) = record.as_ref().and_then(Partition::of) else {
        return String::new();
    };
    let name = words::partition(of.partition, &of.topic);
    let Partition {
        isr,
        replicas,
        adding_replicas,
        ..
    } = of;
    format!("{name}: in sync {isr:?}, replicas {replicas:?}, being added {adding_replicas:?}")
}

pub fn offset(arguments: &Arguments) -> Outcome {
    let [file] = arguments.exactly()?;
    let source = Source::open(file, arguments.capacity())?;
    let offset = source.image.log_offset();
    let offset = offset.map_err(|refusal| source.refused(refusal))?;
    if arguments.is_json() {
        answer::json(Json::object([("offset", Json::number(offset))]))?;
    } else {
        answer::line(&format!("log offset: {offset}"))?;
    }
    Ok(source.status)
}
