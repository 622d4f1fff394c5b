//! Images: what a cluster knows, in one buffer.

use std::fmt;

use crate::calls;
use crate::kind::ThrottleKind;
use crate::names::{Prefixes, names};
use crate::output::{of_run, written};
use crate::record::Record;
use crate::refusal::{Refusal, Stopped};
use crate::shapes::{BrokerRegistration, Id, Partition, Topic, TopicFreeze};
use crate::view::View;
use crate::{LEAST_CAPACITY, MOST_CAPACITY};

/// What a cluster knows of its topics, brokers and freezes: a buffer of
/// [`LEAST_CAPACITY`](crate::LEAST_CAPACITY) to [`MOST_CAPACITY`](crate::MOST_CAPACITY)
/// bytes, which is an image from the first call to the last. So no method here refuses by
/// [`NoImage`](Refusal::NoImage) but those that make one.
///
/// A refusal leaves the image as it was.
///
/// A call takes up to [`STACK_APPLY`](crate::STACK_APPLY) bytes of the thread's stack;
/// [`with_stack`](crate::with_stack) runs it where they are.
///
/// ```
/// use jeghatuf::{Image, Refusal};
/// use jeghatuf::shapes::Topic;
///
/// let mut image = Image::open(4_096)?;
/// let topic = Topic {
///     name: "plan-0042".into(),
///     topic_id: [7; 16],
///     partitions: 1,
///     replication_factor: 3,
/// };
/// let record = topic.record()?;
/// image.validate(&record)?;
/// image.apply(0, &record)?;
/// assert_eq!(image.log_offset()?, 0);
///
/// // the image counts the partitions that it has
/// assert_eq!(image.topic("plan-0042")?, Some(Topic { partitions: 0, ..topic.clone() }));
/// assert_eq!(image.topic("plan-0043")?, None);
///
/// let snapshot = image.snapshot()?;
/// assert_eq!(Image::restore(4_096, &snapshot).unwrap(), image);
/// # Ok::<(), Refusal>(())
/// ```
#[derive(Clone, PartialEq, Eq, Hash)]
pub struct Image {
    bytes: Box<[u8]>,
}

impl Image {
    /// A fresh image of a capacity: [`NoImage`](Refusal::NoImage) for one that is too small
    /// or too great.
    ///
    /// ```
    /// use jeghatuf::{Image, LEAST_CAPACITY, MOST_CAPACITY, Refusal};
    ///
    /// assert!(Image::open(LEAST_CAPACITY).is_ok());
    /// assert!(Image::open(MOST_CAPACITY).is_ok());
    /// assert_eq!(Image::open(MOST_CAPACITY + 1), Err(Refusal::NoImage));
    /// ```
    pub fn open(capacity: usize) -> Result<Self, Refusal> {
        let mut bytes = buffer(capacity)?;
        calls::open(&mut bytes).map_err(Refusal::from_number)?;
        Ok(Self { bytes })
    }

    /// The image that a buffer is, by the exact test: [`NoImage`](Refusal::NoImage) for
    /// every other one, such as an image of the format before this one.
    ///
    /// ```
    /// use jeghatuf::{Image, Refusal};
    ///
    /// let image = Image::open(144)?;
    /// let mut bytes = image.as_bytes().to_vec();
    /// assert_eq!(Image::from_bytes(bytes.clone())?, image);
    /// bytes[7] = 1; // the format before
    /// assert_eq!(Image::from_bytes(bytes), Err(Refusal::NoImage));
    /// # Ok::<(), Refusal>(())
    /// ```
    pub fn from_bytes(bytes: impl Into<Box<[u8]>>) -> Result<Self, Refusal> {
        let bytes = bytes.into();
        match calls::is_image(&bytes) {
            1 => Ok(Self { bytes }),
            _ => Err(Refusal::NoImage),
        }
    }

    /// The image of a snapshot, with a capacity.
    ///
    /// Refuses by [`NoImage`](Refusal::NoImage) for the capacity; or of a record, with its
    /// place, by what [`Record::read`] refuses by, by
    /// [`MisplacedOffset`](Refusal::MisplacedOffset), [`Overflow`](Refusal::Overflow) or
    /// [`Full`](Refusal::Full). [`restore_again`](Image::restore_again) gives the image of
    /// the records before it.
    ///
    /// ```
    /// use jeghatuf::{Image, Refusal, Stopped};
    ///
    /// let mut snapshot = Image::open(144)?.snapshot()?;
    /// assert_eq!(Image::restore(144, &snapshot).unwrap(), Image::open(144)?);
    /// snapshot.extend([11, 0]);
    /// let stopped = Stopped { refusal: Refusal::PastTheEnd, place: Some(14) };
    /// assert_eq!(Image::restore(144, &snapshot), Err(stopped));
    /// # Ok::<(), Refusal>(())
    /// ```
    pub fn restore(capacity: usize, snapshot: &[u8]) -> Result<Self, Stopped> {
        let bytes = buffer(capacity).map_err(|refusal| Stopped {
            refusal,
            place: None,
        })?;
        let mut image = Self { bytes };
        image.restore_again(snapshot)?;
        Ok(image)
    }

    /// Makes this the image of a snapshot, whatever it was. Refuses as
    /// [`restore`](Image::restore); this then is the image of the records before the refused
    /// one.
    ///
    /// ```
    /// use jeghatuf::{Image, Refusal};
    /// use jeghatuf::shapes::FeatureLevel;
    ///
    /// let level = FeatureLevel { name: "a".into(), level: 1 }.record()?;
    /// let mut snapshot = Image::open(144)?.snapshot()?;
    /// snapshot.extend(level.as_bytes());
    /// snapshot.push(0);
    /// let mut image = Image::open(156)?;
    /// assert_eq!(image.restore_again(&snapshot).unwrap_err().place, Some(26));
    /// assert_eq!(image.features_epoch()?, 0);
    /// # Ok::<(), Refusal>(())
    /// ```
    pub fn restore_again(&mut self, snapshot: &[u8]) -> Result<(), Stopped> {
        of_run(|place| calls::restore(&mut self.bytes, snapshot, place))
    }

    /// Its bytes, which [`from_bytes`](Image::from_bytes) takes.
    pub fn as_bytes(&self) -> &[u8] {
        &self.bytes
    }

    /// How many bytes it has.
    pub fn capacity(&self) -> usize {
        self.bytes.len()
    }

    /// Whether the record at the start of the input may be applied.
    ///
    /// Refuses by what [`Record::read`] refuses by;
    /// [`UnlawfulName`](Refusal::UnlawfulName); then by the rule of its kind, from
    /// [`TopicExists`](Refusal::TopicExists) to [`NoExtension`](Refusal::NoExtension).
    ///
    /// ```
    /// use jeghatuf::{Image, Refusal};
    /// use jeghatuf::shapes::DeleteTopic;
    ///
    /// let image = Image::open(144)?;
    /// let record = DeleteTopic { name: "plan-0042".into() }.record()?;
    /// assert_eq!(image.validate(&record), Err(Refusal::UnknownTopic));
    /// # Ok::<(), Refusal>(())
    /// ```
    pub fn validate(&self, input: impl AsRef<[u8]>) -> Result<(), Refusal> {
        nothing(calls::validate(&self.bytes, input.as_ref()))
    }

    /// Applies the record at the start of the input, at its log offset. It does not
    /// validate.
    ///
    /// Refuses by what [`Record::read`] refuses by; [`NotLater`](Refusal::NotLater);
    /// [`Overflow`](Refusal::Overflow), [`Full`](Refusal::Full).
    ///
    /// ```
    /// use jeghatuf::{Image, Refusal};
    /// use jeghatuf::shapes::FeatureLevel;
    ///
    /// let record = FeatureLevel { name: "a".into(), level: 1 }.record()?;
    /// assert_eq!(Image::open(155)?.apply(0, &record), Err(Refusal::Full));
    /// let mut image = Image::open(156)?;
    /// image.apply(3, &record)?;
    /// assert_eq!(image.apply(3, &record), Err(Refusal::NotLater));
    /// # Ok::<(), Refusal>(())
    /// ```
    pub fn apply(&mut self, offset: i64, input: impl AsRef<[u8]>) -> Result<(), Refusal> {
        nothing(calls::apply(&mut self.bytes, offset, input.as_ref()))
    }

    /// The image's log offset and its records, in the order of their keys: what
    /// [`restore`](Image::restore) takes and [`records`](crate::records) goes through.
    pub fn snapshot(&self) -> Result<Vec<u8>, Refusal> {
        self.written(calls::snapshot)
    }

    /// The records that take the image to a metadata level; once they are applied in
    /// order, there are none.
    ///
    /// ```
    /// use jeghatuf::{Image, Refusal};
    ///
    /// assert_eq!(Image::open(144)?.downgrade(16)?, []);
    /// # Ok::<(), Refusal>(())
    /// ```
    pub fn downgrade(&self, level: i16) -> Result<Vec<u8>, Refusal> {
        self.written(|image, out| calls::downgrade(image, level, out))
    }

    /// The topic of a name. Refuses a name of more than 255 bytes by
    /// [`OverALimit`](Refusal::OverALimit), as all lookups by name do.
    pub fn topic(&self, name: &str) -> Result<Option<Topic>, Refusal> {
        self.found(|image, out| calls::topic(image, name.as_bytes(), out))
            .map(|record| record.as_ref().and_then(Topic::of))
    }

    /// The topic of an id.
    pub fn topic_by_id(&self, id: &Id) -> Result<Option<Topic>, Refusal> {
        self.found(|image, out| calls::topic_by_id(image, id, out))
            .map(|record| record.as_ref().and_then(Topic::of))
    }

    /// The partition of a topic's name and a number.
    pub fn partition(&self, topic: &str, number: i32) -> Result<Option<Partition>, Refusal> {
        self.found(|image, out| calls::partition(image, topic.as_bytes(), number, out))
            .map(|record| record.as_ref().and_then(Partition::of))
    }

    /// The broker of a node.
    pub fn broker(&self, node: u64) -> Result<Option<BrokerRegistration>, Refusal> {
        self.found(|image, out| calls::broker(image, node, out))
            .map(|record| record.as_ref().and_then(BrokerRegistration::of))
    }

    /// The freeze that covers a topic's name: the literal one, else that of the longest
    /// beginning.
    ///
    /// ```
    /// use jeghatuf::{Image, PatternType, Refusal};
    /// use jeghatuf::shapes::TopicFreeze;
    ///
    /// let freeze = TopicFreeze {
    ///     scope: "archive-".into(),
    ///     pattern_type: PatternType::Prefixed,
    ///     frozen: true,
    ///     reason: "the season is over".into(),
    ///     set_by: "anna".into(),
    ///     set_at_ms: 1_700_000_000_000,
    ///     proposal_id: [0; 16],
    ///     key_id: String::new(),
    ///     signature: Vec::new(),
    /// };
    /// let mut image = Image::open(4_096)?;
    /// image.apply(0, freeze.record()?)?;
    /// assert_eq!(image.freeze("archive-2023")?, Some(freeze));
    /// assert_eq!(image.freeze("plan-0042")?, None);
    ///
    /// let freezes = image.freezes(["archive-1", "archive-2", "plan-0042"])?;
    /// assert_eq!(freezes.indexes, [Some(0), Some(0), None]);
    /// assert_eq!(freezes.read, 1);
    /// # Ok::<(), Refusal>(())
    /// ```
    pub fn freeze(&self, name: &str) -> Result<Option<TopicFreeze>, Refusal> {
        self.found(|image, out| calls::freeze(image, name.as_bytes(), out))
            .map(|record| record.as_ref().and_then(TopicFreeze::of))
    }

    /// The freezes of up to 256 names in ascending order, repeats allowed.
    ///
    /// Refuses a name below the one before it by [`Wrong`](Refusal::Wrong), one that is too
    /// long and one too many by [`OverALimit`](Refusal::OverALimit).
    pub fn freezes<T: AsRef<str>>(
        &self,
        list: impl IntoIterator<Item = T>,
    ) -> Result<Freezes, Refusal> {
        let list = names(list);
        let mut read = [0];
        let indexes = written(list.len(), |out| {
            calls::freezes(&self.bytes, &list, out, &mut read)
        })?;
        let index = |pair: &[u8]| match *pair {
            [0xff, 0xff] => None,
            [high, low] => Some(u16::from_be_bytes([high, low])),
            _ => None,
        };
        Ok(Freezes {
            indexes: indexes.chunks_exact(2).map(index).collect(),
            read: read[0],
        })
    }

    /// A node's throttle of a kind, in bytes a second: the broker's own, else that of
    /// [`DEFAULT_NODE`](crate::DEFAULT_NODE).
    ///
    /// ```
    /// use jeghatuf::{Image, Refusal, ThrottleKind};
    /// use jeghatuf::shapes::BrokerConfig;
    ///
    /// let config = BrokerConfig {
    ///     node_id: 2,
    ///     config_name: "leader.replication.throttled.rate".into(),
    ///     config_value: Some("1048576".into()),
    /// };
    /// let mut image = Image::open(4_096)?;
    /// image.apply(0, config.record()?)?;
    /// assert_eq!(image.throttle(2, ThrottleKind::Leader)?, Some(1_048_576));
    /// assert_eq!(image.throttle(2, ThrottleKind::Follower)?, None);
    /// # Ok::<(), Refusal>(())
    /// ```
    pub fn throttle(&self, node: u64, kind: ThrottleKind) -> Result<Option<u64>, Refusal> {
        let mut rate = [0];
        let count = calls::throttle(&self.bytes, node, kind.number(), &mut rate)
            .map_err(Refusal::from_number)?;
        Ok((count == 1).then_some(rate[0]))
    }

    /// The features epoch, -1 before any.
    pub fn features_epoch(&self) -> Result<i64, Refusal> {
        let mut epoch = [0];
        nothing(calls::features_epoch(&self.bytes, &mut epoch))?;
        Ok(epoch[0].cast_signed())
    }

    /// The log offset of the last record applied, [`NO_OFFSET`](crate::NO_OFFSET) where
    /// there is none.
    pub fn log_offset(&self) -> Result<i64, Refusal> {
        let mut offset = [0];
        nothing(calls::log_offset(&self.bytes, &mut offset))?;
        Ok(offset[0].cast_signed())
    }

    /// How many partitions have an ISR smaller than the number of their replicas that are
    /// not being added.
    pub fn short_count(&self) -> Result<usize, Refusal> {
        calls::short_count(&self.bytes).map_err(Refusal::from_number)
    }

    /// What a viewer with these prefixes sees of it.
    pub fn view<'a>(&'a self, prefixes: &'a Prefixes) -> View<'a> {
        View::new(self, prefixes)
    }

    /// What a call writes. A record that is found, and all of a snapshot, is shorter than
    /// the image.
    pub(crate) fn written(
        &self,
        mut call: impl FnMut(&[u8], &mut [u8]) -> calls::Answer,
    ) -> Result<Vec<u8>, Refusal> {
        written(self.capacity(), |out| call(&self.bytes, out))
    }

    /// The record that a lookup writes, if it does.
    pub(crate) fn found(
        &self,
        call: impl FnMut(&[u8], &mut [u8]) -> calls::Answer,
    ) -> Result<Option<Record>, Refusal> {
        let bytes = self.written(call)?;
        if bytes.is_empty() {
            return Ok(None);
        }
        Record::of(bytes).map(Some)
    }

    /// Two images that a comparison left in its buffers.
    pub(crate) fn of(bytes: Box<[u8]>) -> Self {
        Self { bytes }
    }
}

impl AsRef<[u8]> for Image {
    fn as_ref(&self) -> &[u8] {
        &self.bytes
    }
}

impl From<Image> for Box<[u8]> {
    fn from(image: Image) -> Self {
        image.bytes
    }
}

impl fmt::Debug for Image {
    fn fmt(&self, formatter: &mut fmt::Formatter<'_>) -> fmt::Result {
        formatter
            .debug_struct("Image")
            .field("capacity", &self.capacity())
            .field("log_offset", &self.log_offset())
            .finish_non_exhaustive()
    }
}

/// What [`Image::freezes`] gives.
#[derive(Clone, Debug, PartialEq, Eq, Hash)]
pub struct Freezes {
    /// Of each name the index of its freeze among the stored ones, in the order of a
    /// snapshot.
    pub indexes: Vec<Option<u16>>,
    /// How many stored freezes were read.
    pub read: u64,
}

/// A buffer of a capacity that an image can have.
pub(crate) fn buffer(capacity: usize) -> Result<Box<[u8]>, Refusal> {
    if (LEAST_CAPACITY..=MOST_CAPACITY).contains(&capacity) {
        Ok(vec![0; capacity].into())
    } else {
        Err(Refusal::NoImage)
    }
}

/// An answer whose value is 0.
fn nothing(answer: calls::Answer) -> Result<(), Refusal> {
    answer.map(|_| ()).map_err(Refusal::from_number)
}
