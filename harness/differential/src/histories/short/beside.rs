//! Short histories, one after the other at one capacity, beside the reference.

use std::collections::HashSet;

use wire::Random;

use crate::histories::History;
use crate::histories::course::Course;
use crate::images::{Compared, Subject, Tally, compare_stored};

/// At which histories' ends Snapshot, Restore and all lookups are asked.
#[derive(Clone, Copy, PartialEq)]
pub enum Ends {
    /// At each.
    Every,
    /// Where no history before ended with this image: its bytes are those of the
    /// reference's contents, and all of these go by the contents alone.
    New,
}

/// Where a history begins as the one before it did, it goes on from there: what
/// they share is run once.
pub struct Beside {
    /// The history so far.
    path: History,
    /// The fresh image's course, and that after each step of the path.
    courses: Vec<Course>,
    asked: Ends,
    /// The images that histories before ended with.
    ends: HashSet<Vec<u8>>,
    random: Random,
}

impl Beside {
    pub fn open(tally: &mut Tally, capacity: usize, asked: Ends) -> Result<Self, String> {
        let path = History {
            capacity,
            validated: false,
            inputs: Vec::new(),
        };
        Ok(Self {
            path,
            courses: vec![Course::open(tally, capacity)?],
            asked,
            ends: HashSet::new(),
            random: Random::new(capacity as u64),
        })
    }

    /// Validate and Apply of each input, and what is asked at the end.
    pub fn compare(&mut self, tally: &mut Tally, inputs: &[&[u8]]) -> Compared {
        self.go_back(inputs);
        for input in &inputs[self.path.inputs.len()..] {
            self.step(tally, input)
                .map_err(|difference| self.path.least(difference, |_| Ok(())))?;
        }
        self.end(tally)
    }

    /// Back to where this history parts from the one before it.
    fn go_back(&mut self, inputs: &[&[u8]]) {
        let both = self.path.inputs.iter().zip(inputs);
        let shared = both.take_while(|(one, other)| one == *other).count();
        self.path.inputs.truncate(shared);
        self.courses.truncate(shared + 1);
    }

    fn step(&mut self, tally: &mut Tally, input: &[u8]) -> Compared {
        self.path.inputs.push(input.to_vec());
        let before = self.courses.last().expect("the fresh image's course");
        let mut course = before.clone();
        course.take(tally, input, false)?;
        self.courses.push(course);
        Ok(())
    }

    /// What is asked there, where it is.
    fn end(&mut self, tally: &mut Tally) -> Compared {
        let course = self.courses.last().expect("the fresh image's course");
        let is_new = self.ends.insert(course.buffer.clone());
        tally.count("new image at the end", is_new);
        if !is_new && self.asked == Ends::New {
            return Ok(());
        }
        let before = self.random.clone();
        compare_end(tally, &mut self.random, course).map_err(|difference| {
            self.path.least(difference, |course| {
                compare_end(&mut Tally::default(), &mut before.clone(), course)
            })
        })
    }
}

/// Snapshot, Restore of it, and all lookups.
fn compare_end(tally: &mut Tally, random: &mut Random, course: &Course) -> Compared {
    course.clone().cut(tally, random)?;
    let reference = &course.reference;
    let subject = Subject::beside(reference.image.clone(), reference.observed());
    compare_stored(tally, &subject, &course.buffer)
}
