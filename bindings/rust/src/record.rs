//! Records: one, and a run of them.

use std::fmt;

use crate::calls;
use crate::field::{Lists, Source};
use crate::kind::Kind;
use crate::refusal::{Refusal, Stopped};
use crate::shapes::Fields;

/// A record: bytes that the library reads, and nothing behind them.
///
/// It is built from the fields of its kind (see [`shapes`](crate::shapes)), or read.
///
/// ```
/// use jeghatuf::{Kind, Record, Refusal};
/// use jeghatuf::shapes::DeleteTopic;
///
/// let record = DeleteTopic { name: "plan-0042".into() }.record()?;
/// assert_eq!(record.kind(), Kind::DeleteTopic);
/// assert_eq!(record.field(1), Some(&b"plan-0042"[..]));
/// assert_eq!(Record::read(record.as_bytes())?, record);
/// # Ok::<(), Refusal>(())
/// ```
#[derive(Clone, PartialEq, Eq, Hash)]
pub struct Record {
    kind: Kind,
    bytes: Vec<u8>,
}

impl Record {
    /// Reads the record at the start of the input. What stands behind it is not looked at.
    ///
    /// Refuses by [`PastTheEnd`](Refusal::PastTheEnd),
    /// [`UnknownKind`](Refusal::UnknownKind); then by [`Wrong`](Refusal::Wrong),
    /// [`OverALimit`](Refusal::OverALimit) or [`Repeated`](Refusal::Repeated), by the first
    /// faulty field.
    ///
    /// ```
    /// use jeghatuf::{Record, Refusal};
    ///
    /// assert_eq!(Record::read(&[]), Err(Refusal::PastTheEnd));
    /// assert_eq!(Record::read(&[27, 0, 0]), Err(Refusal::UnknownKind));
    /// assert_eq!(Record::read(&[11, 0, 0]), Err(Refusal::Wrong));
    /// ```
    pub fn read(input: &[u8]) -> Result<Self, Refusal> {
        let used = calls::read(input).map_err(Refusal::from_number)?;
        let bytes = input.get(..used).ok_or(Refusal::PastTheEnd)?.to_vec();
        Self::of(bytes)
    }

    /// Bytes that are a record and nothing more.
    pub(crate) fn of(bytes: Vec<u8>) -> Result<Self, Refusal> {
        let kind = bytes.first().copied().and_then(Kind::from_number);
        let kind = kind.ok_or(Refusal::UnknownKind)?;
        Ok(Self { kind, bytes })
    }

    pub(crate) fn write(kind: Kind, lists: &Lists) -> Result<Self, Refusal> {
        let Lists {
            tags,
            lengths,
            values,
        } = lists;
        let mut bytes = vec![0; lists.size()];
        let written = calls::write(kind.number(), tags, lengths, values, &mut bytes)
            .map_err(Refusal::from_number)?;
        bytes.truncate(written);
        Self::of(bytes)
    }

    /// Its kind.
    pub fn kind(&self) -> Kind {
        self.kind
    }

    /// Its bytes.
    pub fn as_bytes(&self) -> &[u8] {
        &self.bytes
    }

    /// Its fields, by name.
    pub fn fields(&self) -> Fields {
        Fields::of(self)
    }

    /// The bytes of the field of a tag, of the first one where the field repeats.
    pub fn field(&self, tag: u8) -> Option<&[u8]> {
        Source::Record(&self.bytes).values(tag).next()
    }
}

impl AsRef<[u8]> for Record {
    fn as_ref(&self) -> &[u8] {
        &self.bytes
    }
}

impl From<Record> for Vec<u8> {
    fn from(record: Record) -> Self {
        record.bytes
    }
}

impl fmt::Debug for Record {
    fn fmt(&self, formatter: &mut fmt::Formatter<'_>) -> fmt::Result {
        formatter
            .debug_tuple("Record")
            .field(&self.fields())
            .finish()
    }
}

/// The records of a run, one after the other; it ends with the first one that is refused.
///
/// ```
/// use jeghatuf::{Refusal, Stopped, records};
/// use jeghatuf::shapes::{DeleteTopic, FeatureLevel};
///
/// let level = FeatureLevel { name: "a".into(), level: 1 }.record()?;
/// let delete = DeleteTopic { name: "b".into() }.record()?;
/// let mut run = [level.as_bytes(), delete.as_bytes()].concat();
/// let read: Result<Vec<_>, _> = records(&run).collect();
/// assert_eq!(read, Ok(vec![level, delete]));
///
/// run.push(11);
/// let stopped = records(&run).find_map(Result::err);
/// assert_eq!(stopped, Some(Stopped { refusal: Refusal::PastTheEnd, place: Some(19) }));
/// # Ok::<(), Refusal>(())
/// ```
pub fn records(run: &[u8]) -> Records<'_> {
    Records { run, at: 0 }
}

/// What [`records`] gives.
#[derive(Clone, Debug)]
pub struct Records<'a> {
    run: &'a [u8],
    at: usize,
}

impl Iterator for Records<'_> {
    type Item = Result<Record, Stopped>;

    fn next(&mut self) -> Option<Self::Item> {
        let rest = self.run.get(self.at..).filter(|rest| !rest.is_empty())?;
        let place = self.at;
        let record = Record::read(rest);
        self.at = match &record {
            Ok(record) => place + record.bytes.len(),
            Err(_) => self.run.len(),
        };
        Some(record.map_err(|refusal| Stopped {
            refusal,
            place: Some(place),
        }))
    }
}
