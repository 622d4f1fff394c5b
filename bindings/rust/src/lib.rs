//! The picture that a Kafka-like cluster has of its topics, brokers and freezes: safe
//! functions over `libjeghatuf.a`, in which every function is proved to meet its contract.
//!
//! - An [`Image`] is what the cluster knows, in one buffer that it owns.
//! - A [`Record`] changes it; [`shapes`] has the fields of each kind by name.
//! - Every call takes any bytes, and refuses by a [`Refusal`]; in a run of records by a
//!   [`Stopped`], with the place.
//! - The library keeps nothing between calls and takes no memory but the stack, of which a
//!   call needs more than a small thread has: [`with_stack`].
//! - [`calls`] has the entry points as they are.
//!
//! ```
//! use jeghatuf::{Image, Refusal, records, with_stack};
//! use jeghatuf::shapes::{FeatureLevel, TopicConfig};
//!
//! fn offset_after(run: &[u8]) -> Result<i64, Box<dyn std::error::Error + Send + Sync>> {
//!     let mut image = Image::open(4_096)?;
//!     for (record, offset) in records(run).zip(0..) {
//!         let record = record?;
//!         image.validate(&record)?;
//!         image.apply(offset, &record)?;
//!     }
//!     Ok(image.log_offset()?)
//! }
//!
//! let level = FeatureLevel { name: "metadata.version".into(), level: 17 };
//! let run = level.record()?;
//! let offset = with_stack(|| offset_after(run.as_bytes()))?;
//! assert_eq!(offset.unwrap(), 0);
//!
//! let config = TopicConfig {
//!     topic: "plan-0042".into(),
//!     overrides: [("cleanup.policy".into(), "compact".into())].into(),
//! };
//! let error = offset_after(config.record()?.as_bytes()).unwrap_err();
//! assert_eq!(error.downcast_ref(), Some(&Refusal::UnknownTopic));
//! # Ok::<(), Box<dyn std::error::Error>>(())
//! ```

#![deny(missing_docs)]

pub mod calls;
mod field;
mod form;
mod image;
pub mod kafka;
mod kind;
mod names;
mod output;
mod raw;
mod record;
mod refusal;
mod runs;
pub mod shapes;
mod stack;
mod view;

pub use image::{Freezes, Image};
pub use kind::{Action, Fencing, Kind, PatternType, Protocol, Recovery, ThrottleKind};
pub use names::Prefixes;
pub use record::{Record, Records, records};
pub use refusal::{Refusal, Stopped};
pub use runs::{Comparison, compare, history, log_freeze, with_offset, without_offset};
pub use shapes::Fields;
pub use stack::{STACK, STACK_APPLY, STACK_COMPARE, STACK_OTHER, STACK_RECORD, with_stack};
pub use view::View;

/// The version of an image's format: its eighth byte.
pub const FORMAT_VERSION: u8 = 2;

/// The least bytes that an image has.
pub const LEAST_CAPACITY: usize = 144;

/// The most bytes that an image has.
pub const MOST_CAPACITY: usize = 65536;

/// The most bytes of a string.
pub const STRING_LIMIT: usize = 255;

/// The most bytes of a signature.
pub const SIGNATURE_LIMIT: usize = 512;

/// The most elements of a list or a map.
pub const LIST_LIMIT: usize = 64;

/// The most endpoints, or approvals.
pub const ENDPOINT_LIMIT: usize = 16;

/// The most entities of a quota.
pub const ENTITY_LIMIT: usize = 8;

/// The most bytes of a record.
pub const MOST_RECORD: usize = 33477;

/// The most names of [`Image::freezes`].
pub const JOB_LIMIT: usize = 256;

/// The most prefixes of a viewer.
pub const PREFIX_LIMIT: usize = 8;

/// The most records of [`history`].
pub const RECORD_LIMIT: usize = 8;

/// The most records of one of its histories.
pub const LENGTH_LIMIT: usize = 4;

/// The log offset of an image that no record was applied to.
pub const NO_OFFSET: i64 = -1;

/// The node of the configs that hold for the brokers without ones of their own.
pub const DEFAULT_NODE: u64 = u64::MAX;
