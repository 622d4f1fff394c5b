//! Lists of names: each a length of two bytes, the higher one first, and its bytes.

use crate::PREFIX_LIMIT;
use crate::calls;
use crate::form::clipped;
use crate::image::Image;
use crate::refusal::Refusal;

/// The list of some names. One that is too long is cut to one that still is.
pub(crate) fn names<T: AsRef<str>>(list: impl IntoIterator<Item = T>) -> Vec<u8> {
    let mut bytes = Vec::new();
    for name in list {
        let name = clipped(name.as_ref());
        let length = u16::try_from(name.len()).unwrap_or(u16::MAX);
        bytes.extend(length.to_be_bytes());
        bytes.extend(name.bytes());
    }
    bytes
}

/// The prefixes of a viewer: up to [`PREFIX_LIMIT`](crate::PREFIX_LIMIT) beginnings of
/// names, in any order. An empty one shows all, none show nothing.
///
/// ```
/// use jeghatuf::{Prefixes, Refusal};
///
/// assert!(Prefixes::new(["plan-", "room-"]).is_ok());
/// assert_eq!(Prefixes::new(["p"; 9]), Err(Refusal::OverALimit));
/// assert_eq!(Prefixes::new(["p".repeat(256)]), Err(Refusal::OverALimit));
/// ```
#[derive(Clone, Debug, PartialEq, Eq, Hash)]
pub struct Prefixes {
    list: Vec<u8>,
}

impl Prefixes {
    /// Takes some prefixes: [`OverALimit`](Refusal::OverALimit) for too many, or for one
    /// of more than 255 bytes.
    pub fn new<T: AsRef<str>>(prefixes: impl IntoIterator<Item = T>) -> Result<Self, Refusal> {
        let list = names(prefixes.into_iter().take(PREFIX_LIMIT + 1));
        let empty = Image::open(crate::LEAST_CAPACITY)?;
        calls::view_snapshot(empty.as_bytes(), &list, &mut []).map_err(Refusal::from_number)?;
        Ok(Self { list })
    }

    /// The prefixes as the library takes them.
    pub fn as_bytes(&self) -> &[u8] {
        &self.list
    }
}
