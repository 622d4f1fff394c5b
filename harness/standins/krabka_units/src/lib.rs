//! Stand-in for `krabka_units`: a byte rate is a number of bytes a second.

#[derive(Debug, Clone, Copy, PartialEq, Eq)]
pub struct ByteRate {
    pub bytes_per_sec: i64,
}

pub mod convert {
    use crate::ByteRate;

    pub trait ByteRateExt {
        fn from_bytes_per_sec(bytes_per_sec: i64) -> Self;
    }

    impl ByteRateExt for ByteRate {
        fn from_bytes_per_sec(bytes_per_sec: i64) -> Self {
            Self { bytes_per_sec }
        }
    }
}
