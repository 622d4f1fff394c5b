//! Kafka's own record bytes: TopicRecord, FeatureLevelRecord, ProducerIdsRecord and
//! UnregisterBrokerRecord, version 0, in KIP-631's frame, version 1.
//!
//! ```
//! use jeghatuf::{Refusal, kafka};
//! use jeghatuf::shapes::FeatureLevel;
//!
//! let bytes = [1, 12, 0, 2, b'a', 0, 1, 0];
//! let (record, used) = kafka::read(&bytes)?;
//! assert_eq!(FeatureLevel::of(&record), Some(FeatureLevel { name: "a".into(), level: 1 }));
//! assert_eq!(used, 8);
//! assert_eq!(kafka::write(&record)?, bytes);
//! assert_eq!(kafka::read(&bytes[..7]), Err(Refusal::PastTheEnd));
//! # Ok::<(), Refusal>(())
//! ```

use crate::calls;
use crate::output::written;
use crate::record::Record;
use crate::refusal::Refusal;

/// Enough for every record of the four kinds, in either form.
const ROOM: usize = 512;

/// Reads the record of Kafka's at the start of the input, and says how many bytes of it were
/// used. A topic has no partitions and replication factor 0.
///
/// Refuses part by part by [`PastTheEnd`](Refusal::PastTheEnd),
/// [`UnknownKind`](Refusal::UnknownKind), [`Wrong`](Refusal::Wrong),
/// [`OverALimit`](Refusal::OverALimit).
pub fn read(input: &[u8]) -> Result<(Record, usize), Refusal> {
    let mut used = [0];
    let bytes = written(ROOM, |out| calls::kafka_read(input, out, &mut used))?;
    let used = usize::try_from(used[0]).unwrap_or(input.len());
    Ok((Record::of(bytes)?, used))
}

/// Writes the record at the start of the input in Kafka's bytes.
///
/// Refuses by what [`Record::read`] refuses by; by
/// [`UnknownKind`](Refusal::UnknownKind) for a kind beyond the four;
/// [`NotKafkas`](Refusal::NotKafkas) for a broker from 2^31 on.
pub fn write(input: impl AsRef<[u8]>) -> Result<Vec<u8>, Refusal> {
    written(ROOM, |out| calls::kafka_write(input.as_ref(), out))
}
