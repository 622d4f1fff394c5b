//! `make`: lines as records, the inverse of `show`.

use crate::answer::bytes_output;
use crate::arguments::Arguments;
use crate::explain::explain;
use crate::failure::{Failure, Outcome, Status};
use crate::input::{Input, Window};
use crate::output::Output;
use crate::parse::{self, Fault};
use crate::run::Lists;
use crate::spell::Style;

/// More bytes than any record's line has.
const MOST_LINE: usize = 1 << 20;

/// What an editor may put before the first line.
const MARK: &[u8] = b"\xef\xbb\xbf";

pub fn make(arguments: &Arguments) -> Outcome {
    let [file] = arguments.exactly()?;
    let mut window = Window::new(Input::open(file)?);
    let mut out = bytes_output(arguments)?;
    records(&mut window, arguments.style(), &mut out)?;
    out.finish()?;
    Ok(Status::Good)
}

fn records(window: &mut Window, style: Style, out: &mut Output) -> Result<(), Failure> {
    let mut maker = Maker::default();
    window.fill(MARK.len())?;
    if window.rest().starts_with(MARK) {
        window.pass(MARK.len());
    }
    for number in 1_u64.. {
        let Some(length) = window.line(MOST_LINE)? else {
            break;
        };
        let line = window.rest().get(..length).unwrap_or_default();
        let made = match length {
            0..=MOST_LINE => maker.record(line, style, &mut out.bytes),
            _ => Err(Fault::new("the line is longer than 1,048,576 bytes")),
        };
        if let Err(fault) = made {
            // the records before it are written where they go to standard output
            out.flush()?;
            return Err(refused(window.name(), number, &fault));
        }
        out.spill()?;
        window.pass(length + 1);
    }
    Ok(())
}

fn refused(file: &str, number: u64, fault: &Fault) -> Failure {
    let Fault { field, reason } = fault;
    let field = match field.as_str() {
        "" => String::new(),
        field => format!("{}: ", crate::words::plain(field)),
    };
    Failure::Refused(format!("{file}: line {number}: {field}{reason}"))
}

/// Makes records, one after the other, in the same memory.
#[derive(Default)]
struct Maker {
    run: Vec<u8>,
    lists: Lists,
}

impl Maker {
    /// Puts the record of a line behind the output, if it is no blank line or remark.
    fn record(&mut self, line: &[u8], style: Style, out: &mut Vec<u8>) -> Result<(), Box<Fault>> {
        if parse::is_skipped(line) {
            return Ok(());
        }
        self.run.clear();
        let kind = parse::line(line, style, &mut self.run)?;
        let written = self.lists.write(kind, &self.run, out);
        written.map_err(|number| explain(kind, parse::shape_of(kind), &self.run, number))
    }
}
