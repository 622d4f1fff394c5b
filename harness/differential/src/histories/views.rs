//! What a viewer of some prefixes gets: held to the reference's records, chosen
//! by name, and of two images that agree on what counts held to each other.

mod expected;
mod lists;

use std::collections::BTreeSet;

use krabka_metadata::MetadataImage;
use oracle::shrink::{self, STEPS, least_records};
use oracle::verdict::NO_IMAGE;
use wire::{Random, TOO_SHORT, decode, hex};

use self::expected::{Question, counted, found, named_by};
pub use self::lists::listed;
use self::lists::{drawn_prefixes, refused_lists, simpler};
use super::course::Course;
use super::drawn::{Drawn, capacities};
use super::{History, all_told};
use crate::images::{Compared, Tally, frozen_names};

/// How many lists of prefixes are drawn for a history.
const LISTS: usize = 6;
/// How many names a list is asked about.
const NAMES: usize = 24;
/// The most bytes that an output is longer than it must be.
const LONGER: usize = 40;

/// Compares a drawn history's image, for some lists of prefixes each beside
/// images of the same history in which the records that do not count are others.
pub fn compare_views(tally: &mut Tally, seed: u64) -> Compared {
    let mut random = Random::new(seed ^ 0x0001_0EE5);
    let drawn = Drawn::of(&mut random, seed);
    let strange = Drawn::of(&mut random, !seed);
    let places = capacities(&mut random, drawn.reached);
    let reached = drawn.reached;
    let history = History {
        capacity: places[0],
        validated: drawn.validated,
        inputs: drawn.inputs,
    };
    let course = history.compare(&mut Tally::default())?;
    for _ in 0..LISTS {
        let viewed = Viewed {
            history: &history,
            reached,
            strange: &strange.inputs,
            prefixes: &drawn_prefixes(&mut random, &names(&course.reference.image)),
        };
        let before = random.clone();
        viewed
            .compare(tally, &mut random, &course)
            .map_err(|difference| viewed.least(difference, &before))?;
    }
    for (list, number) in refused_lists(&mut random) {
        compare_refused(tally, &course, &list, number).map_err(|difference| {
            history.least(difference, |course| {
                compare_refused(&mut Tally::default(), course, &list, number)
            })
        })?;
    }
    Ok(())
}

/// A history as a viewer sees it.
#[derive(Clone, Copy)]
struct Viewed<'a> {
    history: &'a History,
    /// The greatest weight on its way.
    reached: usize,
    /// Those of another history.
    strange: &'a [Vec<u8>],
    prefixes: &'a [String],
}

impl Viewed<'_> {
    /// On the history's image, and beside it on those of others.
    fn compare(&self, tally: &mut Tally, random: &mut Random, course: &Course) -> Compared {
        let others = [self.fewer(random)?, self.changed(random)?];
        compare_list(tally, random, course, &others, self.prefixes)
    }

    /// The difference with the fewest prefixes and inputs that show one.
    fn least(&self, difference: String, before: &Random) -> String {
        let compare = |viewed: Viewed| {
            let course = viewed.history.run(&mut Tally::default())?;
            viewed.compare(&mut Tally::default(), &mut before.clone(), &course)
        };
        let inputs = &self.history.inputs;
        let (inputs, difference) = least_records(difference, inputs, |inputs| {
            let history = &self.history.with(inputs.to_vec());
            compare(Viewed { history, ..*self })
        });
        let viewed = Viewed {
            history: &self.history.with(inputs),
            ..*self
        };
        let (strange, difference) = least_records(difference, self.strange, |strange| {
            compare(Viewed { strange, ..viewed })
        });
        let viewed = Viewed {
            strange: &strange,
            ..viewed
        };
        let shorter = |prefix: &String| simpler(prefix);
        let (prefixes, difference) =
            shrink::least(STEPS, difference, self.prefixes, shorter, |prefixes| {
                compare(Viewed { prefixes, ..viewed })
            });
        let (difference, strange) = (viewed.history.tell(&difference), all_told(&strange));
        format!("{difference}for the prefixes {prefixes:?}, beside these:\n{strange}")
    }

    /// The same history without the records that do not count for the viewer, at
    /// another capacity.
    fn fewer(&self, random: &mut Random) -> Result<Course, String> {
        let (counting, _) = parted(self.prefixes, &self.history.inputs);
        self.elsewhere(random, counting)
    }

    /// The same history with a record of another one in the place of each that
    /// does not count, at another capacity.
    fn changed(&self, random: &mut Random) -> Result<Course, String> {
        let (_, others) = parted(self.prefixes, self.strange);
        let mut inputs = self.history.inputs.clone();
        inputs.retain_mut(|input| {
            if counts(self.prefixes, input) {
                return true;
            }
            match others.is_empty() {
                true => false,
                false => {
                    input.clone_from(&others[random.below(others.len())]);
                    true
                }
            }
        });
        self.elsewhere(random, inputs)
    }

    /// The image of other inputs, at one of the history's larger capacities. What
    /// has no room is refused.
    fn elsewhere(&self, random: &mut Random, inputs: Vec<Vec<u8>>) -> Result<Course, String> {
        let places = capacities(random, self.reached);
        let other = History {
            capacity: places[random.below(2)],
            validated: self.history.validated,
            inputs,
        };
        other.run(&mut Tally::default())
    }
}

/// Names that the image has, names near them, and others.
fn names(image: &MetadataImage) -> Vec<String> {
    let mut names: BTreeSet<String> = frozen_names(image);
    let records = oracle::observe::observe(image, &oracle::observe::Witness::default()).records;
    names.extend(records.iter().filter_map(named_by).map(str::to_owned));
    names.extend(["", "plan", "plan-0042", "__room"].map(str::to_owned));
    names.into_iter().collect()
}

/// All questions for one list, on the image and beside it on those of the others
/// that agree with it.
fn compare_list(
    tally: &mut Tally,
    random: &mut Random,
    course: &Course,
    others: &[Course],
    prefixes: &[String],
) -> Compared {
    let records = &course.reference.observed().records;
    let agrees = |other: &Course| {
        counted(prefixes, records) == counted(prefixes, &other.reference.observed().records)
    };
    let mut agreeing = Vec::new();
    for other in others {
        let agree = agrees(other);
        tally.count("two images agree", agree);
        agreeing.extend(agree.then_some(&other.buffer));
    }
    let list = listed(prefixes);
    for question in questions(random, prefixes, &course.reference.image) {
        let expected = found(prefixes, &question, records);
        compare_question(tally, random, &course.buffer, &list, &question, &expected)?;
        compare_no_image(tally, &list, &question)?;
        for other in &agreeing {
            let images = [&course.buffer, *other];
            compare_beside(tally, random, images, &list, &question)?;
        }
    }
    Ok(())
}

/// Inputs that count for the viewer, and those that do not.
fn parted(prefixes: &[String], inputs: &[Vec<u8>]) -> (Vec<Vec<u8>>, Vec<Vec<u8>>) {
    inputs
        .iter()
        .cloned()
        .partition(|input| counts(prefixes, input))
}

/// Whether an input is a record that can change what counts.
fn counts(prefixes: &[String], input: &[u8]) -> bool {
    decode(input).is_ok_and(|(record, _)| expected::concerns(prefixes, &record))
}

/// The snapshot, and each lookup by visible, invisible, absent and bad names.
fn questions(random: &mut Random, prefixes: &[String], image: &MetadataImage) -> Vec<Question> {
    let mut names: Vec<Vec<u8>> = self::names(image)
        .into_iter()
        .map(String::into_bytes)
        .collect();
    while names.len() > NAMES {
        names.swap_remove(random.below(names.len()));
    }
    names.extend(prefixes.iter().flat_map(|prefix| near(prefix)));
    names.extend([
        vec![b'n'; 256],
        vec![0xff],
        vec![0xff; 256],
        b"plan\xc3".to_vec(),
    ]);
    let mut all = vec![Question::Whole];
    for name in names {
        let number = random.pick(&[0, 1, 2, -1, i32::MAX]);
        all.push(Question::Topic(name.clone()));
        all.push(Question::Partition(name.clone(), number));
        all.push(Question::Freeze(name));
    }
    all
}

/// A name one byte longer than a prefix, and one a character shorter.
fn near(prefix: &str) -> [Vec<u8>; 2] {
    let end = prefix
        .char_indices()
        .next_back()
        .map_or(0, |(place, _)| place);
    [format!("{prefix}x").into_bytes(), prefix[..end].into()]
}

/// One question, with an output of the answer's length, one byte less and more.
fn compare_question(
    tally: &mut Tally,
    random: &mut Random,
    image: &[u8],
    list: &[u8],
    question: &Question,
    expected: &Result<Vec<u8>, u8>,
) -> Compared {
    let length = expected.as_ref().map_or(0, Vec::len);
    let longer = length + 1 + random.below(LONGER);
    for room in BTreeSet::from([0, length.saturating_sub(1), length, longer]) {
        let mut out = random.bytes(room);
        let (answer, end) = emitted(expected, &out);
        let said = question.ask(image, list, &mut out);
        tally.count(question.what(), told(answer));
        if said != answer || out != end {
            return Err(format!(
                "{question:?} says {said:?}, expected is {answer:?}; the output: {}",
                hex(&out)
            ));
        }
    }
    Ok(())
}

/// The answer, and the output's end.
fn emitted(expected: &Result<Vec<u8>, u8>, before: &[u8]) -> (Result<usize, u8>, Vec<u8>) {
    let mut end = before.to_vec();
    let bytes = match expected {
        Ok(bytes) => bytes,
        Err(number) => return (Err(*number), end),
    };
    match end.get_mut(..bytes.len()) {
        Some(place) => place.copy_from_slice(bytes),
        None => return (Err(TOO_SHORT), end),
    }
    (Ok(bytes.len()), end)
}

/// Two images that agree on what counts: equal numbers, and every byte of the
/// output.
fn compare_beside(
    tally: &mut Tally,
    random: &mut Random,
    images: [&Vec<u8>; 2],
    list: &[u8],
    question: &Question,
) -> Compared {
    let room = random.pick(&[0, 100, 70_000]);
    let before = random.bytes(room);
    let mut outs = [before.clone(), before];
    let [one, other] = &mut outs;
    let answers = [
        question.ask(images[0], list, one),
        question.ask(images[1], list, other),
    ];
    tally.count("two images beside each other", told(answers[0]));
    match answers[0] == answers[1] && one == other {
        true => Ok(()),
        false => Err(format!(
            "{question:?} on two images that agree: {answers:?}"
        )),
    }
}

/// A buffer that is no image is 1, whatever else is wrong.
fn compare_no_image(tally: &mut Tally, list: &[u8], question: &Question) -> Compared {
    for list in [list, &[0]] {
        let mut out = [0x5a; 8];
        let answer = question.ask(&[0; 200], list, &mut out);
        tally.count("no image", told(answer));
        if answer != Err(NO_IMAGE) || out != [0x5a; 8] {
            return Err(format!("{question:?} on no image says {answer:?}"));
        }
    }
    Ok(())
}

/// A list that is refused, before any name is looked at.
fn compare_refused(tally: &mut Tally, course: &Course, list: &[u8], number: u8) -> Compared {
    let name = b"\xff".to_vec();
    let asked = [
        Question::Whole,
        Question::Topic(name.clone()),
        Question::Partition(name.clone(), 0),
        Question::Freeze(name),
    ];
    for question in asked {
        let mut out = [0x5a; 8];
        let answer = question.ask(&course.buffer, list, &mut out);
        tally.count("a list that is refused", told(answer));
        if answer != Err(number) || out != [0x5a; 8] {
            return Err(format!(
                "{question:?} says {answer:?}, expected is {number}, for the list {}",
                hex(list)
            ));
        }
    }
    Ok(())
}

fn told(answer: Result<usize, u8>) -> String {
    match answer {
        Ok(0) => "0, nothing".to_owned(),
        Ok(_) => "0, records".to_owned(),
        Err(number) => number.to_string(),
    }
}
