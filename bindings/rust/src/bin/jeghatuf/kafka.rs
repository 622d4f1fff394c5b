//! `from-kafka` and `to-kafka`: Kafka's own record bytes.

use jeghatuf::{Refusal, calls, kafka};

use crate::answer::{Records, bytes_output};
use crate::arguments::{Arguments, Choice};
use crate::bytes::hex;
use crate::failure::{Failure, Outcome, Status, say};
use crate::input::{Input, Window};
use crate::json::Json;
use crate::output::Output;
use crate::source::MOST_HEADED;
use crate::words;

pub fn from_kafka(arguments: &Arguments) -> Outcome {
    let [file] = arguments.exactly()?;
    let mut window = Window::new(Input::open(file)?);
    let mut records = Records::lines(arguments)?;
    if let Err(failure) = read_all(&mut window, &mut records) {
        records.flush()?;
        return Err(failure);
    }
    records.finish()?;
    Ok(Status::Good)
}

/// Reads Kafka's records back to back. A record may be of any length by its tagged fields: where
/// it runs past the window, more is read.
fn read_all(window: &mut Window, records: &mut Records) -> Result<(), Failure> {
    let mut least = MOST_HEADED;
    loop {
        window.fill(least)?;
        let rest = window.rest();
        if rest.is_empty() {
            return Ok(());
        }
        match kafka::read(rest) {
            Ok((record, used)) => {
                records.put(record.as_bytes())?;
                window.pass(used);
                least = MOST_HEADED;
            }
            Err(Refusal::PastTheEnd) if !window.is_whole() => {
                least = rest.len().saturating_mul(2);
            }
            Err(refusal) => return Err(Failure::at(window.name(), window.place, refusal)),
        }
    }
}

pub fn to_kafka(arguments: &Arguments) -> Outcome {
    let [file] = arguments.exactly()?;
    let mut window = Window::new(Input::open(file)?);
    let is_hex = arguments.is_json() && arguments.output().is_none();
    let mut out = match is_hex {
        true => Output::standard(),
        false => bytes_output(arguments)?,
    };
    let mut writer = Writer {
        is_hex,
        skips: arguments.has(Choice::Skip),
        skipped: 0,
    };
    if let Err(failure) = writer.all(&mut window, &mut out) {
        out.flush()?;
        return Err(failure);
    }
    out.finish()?;
    if writer.skipped > 0 {
        let skipped = words::count(writer.skipped, "record", "records");
        say(&format!(
            "{}: {skipped} of other kinds skipped",
            window.name()
        ));
    }
    Ok(Status::Good)
}

struct Writer {
    /// Whether each record is a line with its bytes in hex.
    is_hex: bool,
    /// Whether records of other kinds are left out, and how many were.
    skips: bool,
    skipped: u64,
}

impl Writer {
    fn all(&mut self, window: &mut Window, out: &mut Output) -> Result<(), Failure> {
        loop {
            window.fill(MOST_HEADED)?;
            let rest = window.rest();
            if rest.is_empty() {
                return Ok(());
            }
            let refused = |refusal| Failure::at(window.name(), window.place, refusal);
            let of_number = |number| refused(Refusal::from_number(number));
            let used = calls::read(rest).map_err(of_number)?;
            match kafka::write(rest) {
                Ok(bytes) => self.put(out, &bytes)?,
                Err(Refusal::UnknownKind) if self.skips => self.skipped += 1,
                Err(refusal) => return Err(refused(refusal)),
            }
            window.pass(used);
        }
    }

    fn put(&self, out: &mut Output, bytes: &[u8]) -> Result<(), Failure> {
        if self.is_hex {
            let mut digits = Vec::new();
            hex(&mut digits, bytes);
            let digits = String::from_utf8_lossy(&digits);
            let line = Json::object([("kafka", Json::text(&digits))]);
            out.bytes.extend(line.into_bytes());
            out.bytes.push(b'\n');
        } else {
            out.bytes.extend_from_slice(bytes);
        }
        out.spill()
    }
}
