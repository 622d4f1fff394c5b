//! Why a call refuses.

use std::error::Error;
use std::fmt;

/// A table of the refusals: the name, the number, and what it says.
macro_rules! refusals {
    ($($name:ident = $number:literal, $says:literal;)*) => {
        /// Why a call refuses. The numbers are those of `jeghatuf.h`.
        ///
        /// ```
        /// use jeghatuf::{Image, Refusal};
        ///
        /// let refusal = Image::open(143).unwrap_err();
        /// assert_eq!(refusal, Refusal::NoImage);
        /// assert_eq!(refusal.number(), 1);
        /// assert_eq!(refusal.to_string(), "the buffer is no image, or has no capacity for one");
        /// ```
        #[derive(Clone, Copy, Debug, PartialEq, Eq, Hash)]
        #[non_exhaustive]
        pub enum Refusal {
            $(
                #[doc = concat!(stringify!($number), ": ", $says, ".")]
                $name,
            )*
            /// A number that this crate does not know. The library has none; it is what a
            /// later library may say.
            Unknown(u8),
        }

        impl Refusal {
            /// All refusals that the library has, by their numbers.
            pub const ALL: &[Refusal] = &[$(Refusal::$name),*];

            /// The refusal's number.
            pub const fn number(self) -> u8 {
                match self {
                    $(Refusal::$name => $number,)*
                    Refusal::Unknown(number) => number,
                }
            }

            /// The refusal of a number.
            ///
            /// ```
            /// use jeghatuf::Refusal;
            ///
            /// assert_eq!(Refusal::from_number(18), Refusal::Full);
            /// assert_eq!(Refusal::from_number(200), Refusal::Unknown(200));
            /// ```
            pub const fn from_number(number: u8) -> Self {
                match number {
                    $($number => Refusal::$name,)*
                    other => Refusal::Unknown(other),
                }
            }

            fn says(self) -> &'static str {
                match self {
                    $(Refusal::$name => $says,)*
                    Refusal::Unknown(_) => "a refusal that this crate does not know",
                }
            }
        }
    };
}

refusals! {
    NoImage = 1, "the buffer is no image, or has no capacity for one";
    PastTheEnd = 2, "a header or a body, or a name of a list, runs past the input";
    UnknownKind = 3, "an unknown kind, or one that does not stand here";
    Wrong = 4, "a wrong tag, length or value, or a field missing";
    OverALimit = 5, "over a limit";
    TopicExists = 6, "the topic exists: another id or replication factor, or a count not above its stored partitions' number";
    UnknownTopic = 7, "an unknown topic or partition";
    StaleChange = 8, "a broker's change: another epoch, or an unknown broker";
    StaleUnregistration = 9, "a broker's unregistration: another epoch, or an unknown broker";
    UnknownController = 10, "an unknown controller";
    NotAbove = 11, "producer ids: the next one is not above the stored one";
    StaleProducer = 12, "producer ids: another broker epoch, or an unknown broker";
    EmptyScope = 13, "an empty freeze scope";
    Consumed = 14, "the stored proposal is consumed";
    Withdrawn = 15, "the stored proposal is withdrawn";
    NoExtension = 16, "the stored proposal's approvals are not the first of the new ones";
    Overflow = 17, "the sum of a partition's offset leaves its range";
    Full = 18, "no room: the weight would exceed the capacity";
    TooShort = 19, "the output is too short";
    Repeated = 20, "a node stands twice in a partition's replicas";
    NotLater = 21, "the log offset given is not above the image's";
    MisplacedOffset = 22, "the log offset is missing at the start, or stands later";
    OffsetTooLow = 23, "the log offset given is below -1";
    UnlawfulName = 24, "a topic's name that Kafka does not allow";
    NotVisible = 25, "the name begins with none of the viewer's prefixes";
    PastTheLast = 26, "the number is past the last short history";
    NotKafkas = 27, "a number that Kafka's field cannot hold";
}

impl fmt::Display for Refusal {
    fn fmt(&self, formatter: &mut fmt::Formatter<'_>) -> fmt::Result {
        formatter.write_str(self.says())
    }
}

impl Error for Refusal {}

/// A refusal in a run of records: with the byte that the refused record begins at, if it
/// is about a record.
///
/// ```
/// use jeghatuf::{Image, Refusal, Stopped};
///
/// // a snapshot starts with its log offset
/// let stopped = Image::restore(4_096, &[]).unwrap_err();
/// assert_eq!(stopped, Stopped { refusal: Refusal::MisplacedOffset, place: Some(0) });
/// // a capacity is about no record
/// let stopped = Image::restore(100, &[]).unwrap_err();
/// assert_eq!(stopped, Stopped { refusal: Refusal::NoImage, place: None });
/// ```
#[derive(Clone, Copy, Debug, PartialEq, Eq, Hash)]
pub struct Stopped {
    /// Why.
    pub refusal: Refusal,
    /// The byte of the run that the refused record begins at.
    pub place: Option<usize>,
}

impl fmt::Display for Stopped {
    fn fmt(&self, formatter: &mut fmt::Formatter<'_>) -> fmt::Result {
        match self.place {
            Some(place) => write!(formatter, "byte {place}: {}", self.refusal),
            None => self.refusal.fmt(formatter),
        }
    }
}

impl Error for Stopped {
    fn source(&self) -> Option<&(dyn Error + 'static)> {
        Some(&self.refusal)
    }
}
