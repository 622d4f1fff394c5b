//! Runs of records: a snapshot's two forms, the freeze of a name, two recordings, and
//! short histories.

use crate::calls;
use crate::image::{Image, buffer};
use crate::output::{written, written_of_run};
use crate::record::Record;
use crate::refusal::{Refusal, Stopped};
use crate::shapes::TopicFreeze;

/// The bytes of a log offset at the start of a snapshot.
const OFFSET_RECORD: usize = 14;

/// The new form of a snapshot of the old one, from before images had a log offset: the
/// given offset, and then the run's bytes. [`Image::restore`] takes it.
///
/// Refuses by [`OffsetTooLow`](Refusal::OffsetTooLow); or of a record, with its place, by
/// what [`Record::read`] refuses by, a log offset being an unknown kind here.
///
/// ```
/// use jeghatuf::{Image, Refusal, with_offset, without_offset};
/// use jeghatuf::shapes::FeatureLevel;
///
/// let old = Vec::from(FeatureLevel { name: "a".into(), level: 1 }.record()?);
/// let new = with_offset(&old, 41).unwrap();
/// assert_eq!(Image::restore(4_096, &new).unwrap().log_offset()?, 41);
/// assert_eq!(without_offset(&new), Ok((old, 41)));
/// assert_eq!(with_offset(&[], -2).unwrap_err().refusal, Refusal::OffsetTooLow);
/// # Ok::<(), Refusal>(())
/// ```
pub fn with_offset(run: &[u8], offset: i64) -> Result<Vec<u8>, Stopped> {
    let room = run.len() + OFFSET_RECORD;
    written_of_run(room, |out, value| {
        calls::with_offset(run, offset, out, value)
    })
    .map(|(bytes, _)| bytes)
}

/// The old form of a snapshot of the new one, and its log offset.
///
/// Refuses of a record, with its place, by what [`Record::read`] refuses by, and by
/// [`MisplacedOffset`](Refusal::MisplacedOffset).
pub fn without_offset(run: &[u8]) -> Result<(Vec<u8>, i64), Stopped> {
    written_of_run(run.len(), |out, values| {
        calls::without_offset(run, out, values)
    })
    .map(|(bytes, offset)| (bytes, offset.cast_signed()))
}

/// The freeze of a name from a run of records, which may start with a log offset: the
/// freeze that the image after them has. No image is built.
///
/// Refuses by the name's [`OverALimit`](Refusal::OverALimit); or of a record, with its
/// place, by what [`Record::read`] refuses by, and by
/// [`MisplacedOffset`](Refusal::MisplacedOffset).
///
/// ```
/// use jeghatuf::{Refusal, log_freeze};
/// use jeghatuf::shapes::FeatureLevel;
///
/// let run = FeatureLevel { name: "a".into(), level: 1 }.record()?;
/// assert_eq!(log_freeze(run.as_bytes(), "plan-0042"), Ok(None));
/// # Ok::<(), Refusal>(())
/// ```
pub fn log_freeze(run: &[u8], name: &str) -> Result<Option<TopicFreeze>, Stopped> {
    let (bytes, _) = written_of_run(run.len(), |out, value| {
        calls::log_freeze(run, name.as_bytes(), out, value)
    })?;
    Ok(Record::of(bytes).ok().as_ref().and_then(TopicFreeze::of))
}

/// Where two recordings part: what [`compare`] gives.
#[derive(Clone, Debug, PartialEq, Eq)]
pub struct Comparison {
    /// Whether they part after so many records. Where they do not, both have ended there,
    /// or are refused by one number.
    pub parted: bool,
    /// How many records of each were applied.
    pub count: u64,
    /// The first image after so many records.
    pub first: Image,
    /// The second one.
    pub second: Image,
}

/// Holds two runs of records against each other, from fresh images of a capacity on, at the
/// offsets 0, 1, ..: the least count of records where the snapshots differ apart from the
/// offset, or where one run goes on, has ended or is refused and the other is not so.
///
/// Refuses by [`NoImage`](Refusal::NoImage), on the capacity alone. It takes up to
/// [`STACK_COMPARE`](crate::STACK_COMPARE) bytes of the thread's stack.
///
/// ```
/// use jeghatuf::{Refusal, compare};
/// use jeghatuf::shapes::FeatureLevel;
///
/// let level = |level| FeatureLevel { name: "a".into(), level }.record().map(Vec::from);
/// let one = [level(1)?, level(2)?].concat();
/// let other = [level(1)?, level(3)?].concat();
/// let comparison = compare(4_096, &one, &other)?;
/// assert!(comparison.parted);
/// assert_eq!(comparison.count, 2);
/// assert!(!compare(4_096, &one, &one)?.parted);
/// # Ok::<(), Refusal>(())
/// ```
pub fn compare(capacity: usize, one: &[u8], other: &[u8]) -> Result<Comparison, Refusal> {
    let (mut first, mut second) = (buffer(capacity)?, buffer(capacity)?);
    let mut count = [0];
    let answer = calls::compare(&mut first, &mut second, one, other, &mut count);
    let parted = answer.map_err(Refusal::from_number)? == 1;
    Ok(Comparison {
        parted,
        count: count[0],
        first: Image::of(first),
        second: Image::of(second),
    })
}

/// Of 1 to 8 records the history of length 0 to 4 under a number from 0: shorter ones
/// first, then by the records' positions, leftmost first.
///
/// Refuses of each record by what [`Record::read`] refuses by; by
/// [`OverALimit`](Refusal::OverALimit) for none or too many;
/// [`PastTheLast`](Refusal::PastTheLast).
///
/// ```
/// use jeghatuf::{Refusal, history};
/// use jeghatuf::shapes::FeatureLevel;
///
/// let level = |level| FeatureLevel { name: "a".into(), level }.record().map(Vec::from);
/// let (one, two) = (level(1)?, level(2)?);
/// let records = [&*one, &*two].concat();
/// assert_eq!(history(&records, 0)?, []);
/// assert_eq!(history(&records, 2)?, two);
/// assert_eq!(history(&records, 5)?, [&*two, &*one].concat());
/// assert_eq!(history(&records, 31), Err(Refusal::PastTheLast));
/// # Ok::<(), Refusal>(())
/// ```
pub fn history(records: &[u8], number: u64) -> Result<Vec<u8>, Refusal> {
    written(records.len(), |out| calls::history(records, number, out))
}
