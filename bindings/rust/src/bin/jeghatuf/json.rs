//! JSON for the answers that are no records.

use crate::spell::{self, Style};

/// A value of JSON, as its bytes.
pub struct Json(Vec<u8>);

impl Json {
    pub fn null() -> Self {
        Json(b"null".to_vec())
    }

    pub fn text(text: &str) -> Self {
        let mut out = Vec::new();
        spell::string(&mut out, text.as_bytes());
        Json(out)
    }

    pub fn number(number: impl Into<i128>) -> Self {
        Json(number.into().to_string().into_bytes())
    }

    pub fn bool(value: bool) -> Self {
        Json(value.to_string().into_bytes())
    }

    /// A record, as `show --json` has it.
    pub fn record(record: &[u8]) -> Self {
        let mut out = Vec::new();
        spell::record(&mut out, Style::Json, record);
        Json(out)
    }

    pub fn list(elements: impl IntoIterator<Item = Json>) -> Self {
        let elements: Vec<Vec<u8>> = elements.into_iter().map(|element| element.0).collect();
        Json([&b"["[..], &elements.join(&b','), b"]"].concat())
    }

    pub fn object(members: impl IntoIterator<Item = (&'static str, Json)>) -> Self {
        let member = |(name, value): (&str, Json)| [Json::text(name).0, value.0].join(&b':');
        let members: Vec<Vec<u8>> = members.into_iter().map(member).collect();
        Json([&b"{"[..], &members.join(&b','), b"}"].concat())
    }

    /// The value or null.
    pub fn of<T>(value: Option<T>, json: impl FnOnce(T) -> Json) -> Self {
        value.map_or_else(Json::null, json)
    }

    pub fn into_bytes(self) -> Vec<u8> {
        self.0
    }
}
