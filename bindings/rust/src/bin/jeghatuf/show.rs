//! `show`: records as lines.

use jeghatuf::{Refusal, calls};

use crate::arguments::Arguments;
use crate::failure::{Failure, Outcome, Status};
use crate::input::{Input, Window};
use crate::output::Output;
use crate::source::MOST_HEADED;
use crate::spell::{self, Style};

pub fn show(arguments: &Arguments) -> Outcome {
    let [file] = arguments.exactly()?;
    let mut window = Window::new(Input::open(file)?);
    let mut out = Output::standard();
    let shown = lines(&mut window, arguments.style(), &mut out);
    // what was read before a fault is shown
    if !matches!(shown, Err(Failure::Closed)) {
        out.finish()?;
    }
    shown
}

/// The lines of a file's records, up to the first one that does not read.
fn lines(window: &mut Window, style: Style, out: &mut Output) -> Outcome {
    loop {
        window.fill(MOST_HEADED)?;
        let rest = window.rest();
        if rest.is_empty() {
            return Ok(Status::Good);
        }
        let used = calls::read(rest).map_err(|number| {
            let refusal = Refusal::from_number(number);
            Failure::at(window.name(), window.place, refusal)
        })?;
        line(out, style, rest)?;
        window.pass(used);
    }
}

/// The line of the record at the start of the bytes, which was read.
pub fn line(out: &mut Output, style: Style, record: &[u8]) -> Result<(), Failure> {
    spell::record(&mut out.bytes, style, record);
    out.bytes.push(b'\n');
    out.spill()
}
