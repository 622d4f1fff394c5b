//! What a viewer sees of an image.

use crate::calls;
use crate::image::Image;
use crate::names::Prefixes;
use crate::refusal::Refusal;
use crate::shapes::{Partition, Topic, TopicFreeze};

/// What a viewer sees of an image: the names that begin with one of its prefixes.
///
/// ```
/// use jeghatuf::{Image, Prefixes, Refusal};
/// use jeghatuf::shapes::Topic;
///
/// let topic = |name: &str, id| Topic {
///     name: name.into(),
///     topic_id: [id; 16],
///     partitions: 0,
///     replication_factor: 3,
/// };
/// let mut image = Image::open(4_096)?;
/// image.apply(0, topic("plan-0042", 1).record()?)?;
/// image.apply(1, topic("room-7", 2).record()?)?;
///
/// let prefixes = Prefixes::new(["plan-"])?;
/// let view = image.view(&prefixes);
/// assert_eq!(view.snapshot()?, topic("plan-0042", 1).record()?.as_bytes());
/// assert_eq!(view.topic("plan-0042")?, Some(topic("plan-0042", 1)));
/// assert_eq!(view.topic("plan-0043")?, None);
/// assert_eq!(view.partition("plan-0042", 0)?, None);
/// assert_eq!(view.freeze("plan-0042")?, None);
/// assert_eq!(view.topic("room-7"), Err(Refusal::NotVisible));
/// # Ok::<(), Refusal>(())
/// ```
#[derive(Clone, Copy, Debug)]
pub struct View<'a> {
    image: &'a Image,
    prefixes: &'a Prefixes,
}

impl<'a> View<'a> {
    pub(crate) fn new(image: &'a Image, prefixes: &'a Prefixes) -> Self {
        Self { image, prefixes }
    }

    /// The topics, partitions, offsets, ELR, recovery and topic configs under visible
    /// names, in the order of a snapshot.
    pub fn snapshot(&self) -> Result<Vec<u8>, Refusal> {
        let prefixes = self.prefixes.as_bytes();
        self.image
            .written(|image, out| calls::view_snapshot(image, prefixes, out))
    }

    /// The topic of a visible name: [`NotVisible`](Refusal::NotVisible) for another,
    /// whether or not it exists.
    pub fn topic(&self, name: &str) -> Result<Option<Topic>, Refusal> {
        let (prefixes, name) = (self.prefixes.as_bytes(), name.as_bytes());
        self.image
            .found(|image, out| calls::view_topic(image, prefixes, name, out))
            .map(|record| record.as_ref().and_then(Topic::of))
    }

    /// The partition of a topic's visible name and a number.
    pub fn partition(&self, topic: &str, number: i32) -> Result<Option<Partition>, Refusal> {
        let (prefixes, topic) = (self.prefixes.as_bytes(), topic.as_bytes());
        self.image
            .found(|image, out| calls::view_partition(image, prefixes, topic, number, out))
            .map(|record| record.as_ref().and_then(Partition::of))
    }

    /// The freeze of a visible name.
    pub fn freeze(&self, name: &str) -> Result<Option<TopicFreeze>, Refusal> {
        let (prefixes, name) = (self.prefixes.as_bytes(), name.as_bytes());
        self.image
            .found(|image, out| calls::view_freeze(image, prefixes, name, out))
            .map(|record| record.as_ref().and_then(TopicFreeze::of))
    }
}
