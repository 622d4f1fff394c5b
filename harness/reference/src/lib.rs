//! The reference, compiled unchanged from the folder that KRABKA_REF names.
//! Its own `lib.rs` is not in that folder; this file stands for it.

include!(concat!(env!("OUT_DIR"), "/modules.rs"));

pub use krabka_security::ListenerProtocol;
pub use reference::{
    acl::{self, *},
    break_glass::{self, *},
    directory_id,
    error::{self, MetadataError},
    image::{self, *},
    metadata_version,
    records::{self, *},
    write_freeze::{self, *},
};

pub mod voters {
    pub use krabka_voters::VoterSet;
}
