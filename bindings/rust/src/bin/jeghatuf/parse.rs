//! A line, as text or as JSON, back to a kind and a run of fields. What cannot be put
//! into bytes at all is refused here; what a field may hold is the library's to judge.

use crate::bytes::Set;
use crate::run::Run;
use crate::spell::Style;
use crate::table::{self, Field, Form, KINDS, Presence, Shape};
use crate::values::clip;

/// What is wrong with a line: in which field, if it is in one, and why.
#[derive(Debug, PartialEq, Eq)]
pub struct Fault {
    pub field: String,
    pub reason: String,
}

impl Fault {
    pub fn new(reason: impl Into<String>) -> Box<Self> {
        Box::new(Self {
            field: String::new(),
            reason: reason.into(),
        })
    }

    /// The fault inside a field: `endpoints[1].port`.
    pub fn inside(mut self: Box<Self>, name: &str) -> Box<Self> {
        let dot = match self.field.bytes().next() {
            None | Some(b'[') => "",
            Some(_) => ".",
        };
        self.field = format!("{name}{dot}{}", self.field);
        self
    }
}

pub type Parsed<T> = Result<T, Box<Fault>>;

/// Puts the fields of a line into an empty run, and gives the kind's number.
pub fn line(line: &[u8], style: Style, run: &mut Vec<u8>) -> Parsed<u8> {
    let mut parser = Parser { line, at: 0, style };
    parser.blanks();
    let (number, shape) = match style {
        Style::Text => parser.kind()?,
        Style::Json => parser.json_kind()?,
    };
    let closing = (style == Style::Json).then_some(b'}');
    parser.fields(shape, closing, true, run)?;
    parser.blanks();
    match parser.peek() {
        None => Ok(number),
        Some(_) => Err(Fault::new(format!(
            "{} stands behind the record",
            parser.rest()
        ))),
    }
}

/// Whether a line of text is left out: it is blank, or a remark.
pub fn is_skipped(line: &[u8]) -> bool {
    let mut bytes = line.iter().skip_while(|byte| BLANKS.has(**byte));
    matches!(bytes.next(), None | Some(b'#'))
}

static BLANKS: Set = Set::of(b" \t\r\n");
static NAME_ENDS: Set = Set::of(b"= \t\r\n,]}");
static BARE_ENDS: Set = Set::of(b"\"\\");
/// What ends a value that is no string.
pub static VALUE_ENDS: Set = Set::of(b" \t\r\n,]}");

/// A line, and the byte in it that comes next.
pub struct Parser<'a> {
    pub line: &'a [u8],
    pub at: usize,
    pub style: Style,
}

impl<'a> Parser<'a> {
    pub fn peek(&self) -> Option<u8> {
        self.line.get(self.at).copied()
    }

    fn blanks(&mut self) {
        while self.peek().is_some_and(|byte| BLANKS.has(byte)) {
            self.at += 1;
        }
    }

    /// Steps over a byte, if it is the next one.
    pub fn takes(&mut self, byte: u8) -> bool {
        let is = self.peek() == Some(byte);
        self.at += usize::from(is);
        is
    }

    pub fn expect(&mut self, byte: u8) -> Parsed<()> {
        if self.takes(byte) {
            return Ok(());
        }
        let wanted = char::from(byte);
        Err(Fault::new(format!(
            "{wanted} expected, not {}",
            self.rest()
        )))
    }

    /// What comes next, shortened, for a reason.
    pub fn rest(&self) -> String {
        shown(self.line.get(self.at..).unwrap_or_default())
    }

    /// The bytes up to the first one that ends a word.
    pub fn word(&mut self, ends: &Set) -> &'a [u8] {
        let rest = self.line.get(self.at..).unwrap_or_default();
        let word = rest.get(..ends.first_in(rest)).unwrap_or_default();
        self.at += word.len();
        word
    }

    /// A value without blanks: bare in text, a string without escapes in JSON.
    pub fn bare(&mut self) -> Parsed<&'a [u8]> {
        if self.style == Style::Text {
            return Ok(self.word(&VALUE_ENDS));
        }
        self.expect(b'"')?;
        let word = self.word(&BARE_ENDS);
        self.expect(b'"')?;
        Ok(word)
    }

    fn kind(&mut self) -> Parsed<(u8, &'static Shape)> {
        if self.peek() == Some(b'{') {
            return Err(Fault::new("a line of JSON, which --json reads"));
        }
        kind_named(self.word(&BLANKS))
    }

    /// The kind of an object, wherever its member stands. The parser is left behind the
    /// brace; the member is passed over again among the fields.
    fn json_kind(&mut self) -> Parsed<(u8, &'static Shape)> {
        self.expect(b'{')?;
        let start = self.at;
        let mut first = true;
        while self.member(&mut first, Some(b'}'))? {
            if self.field_name()? == b"kind" {
                let kind = kind_named(self.bare()?)?;
                self.at = start;
                return Ok(kind);
            }
            self.pass_value()?;
        }
        Err(Fault::new("the kind is missing").inside("kind"))
    }

    /// Whether there is another field before the closing byte, or the line's end. In JSON
    /// a comma stands between two.
    fn member(&mut self, first: &mut bool, closing: Option<u8>) -> Parsed<bool> {
        self.blanks();
        let ends = match closing {
            Some(byte) => self.takes(byte),
            None => self.peek().is_none(),
        };
        if ends {
            return Ok(false);
        }
        if self.style == Style::Json && !*first {
            self.expect(b',')?;
            self.blanks();
        }
        *first = false;
        Ok(true)
    }

    fn field_name(&mut self) -> Parsed<&'a [u8]> {
        if self.style == Style::Text {
            let start = self.at;
            let name = self.word(&NAME_ENDS);
            if self.takes(b'=') {
                return Ok(name);
            }
            self.at = start;
            let found = self.rest();
            return Err(Fault::new(format!("name=value expected, not {found}")));
        }
        let name = self.bare()?;
        self.blanks();
        self.expect(b':')?;
        self.blanks();
        Ok(name)
    }

    /// Puts the fields up to the closing byte, or the line's end, behind the run, in the
    /// order of their tags.
    fn fields(
        &mut self,
        shape: &Shape,
        closing: Option<u8>,
        is_record: bool,
        run: &mut Vec<u8>,
    ) -> Parsed<()> {
        let start = run.len();
        let (mut first, mut seen, mut last) = (true, 0_u32, 0);
        let mut is_ordered = true;
        while self.member(&mut first, closing)? {
            let name = self.field_name()?;
            if is_record && self.style == Style::Json && name == b"kind" {
                self.kind_again(&mut seen)?;
                continue;
            }
            let field = named(shape, name, last)?;
            let mark = 1 << (field.tag & 31);
            if seen & mark != 0 {
                return Err(Fault::new("it stands twice").inside(field.name));
            }
            seen |= mark;
            is_ordered &= field.tag > last;
            last = field.tag;
            self.field(field, run)
                .map_err(|fault| fault.inside(field.name))?;
        }
        if !is_ordered {
            order(run, start);
        }
        Ok(())
    }

    /// Passes over the kind's member, once: no field has tag 0.
    fn kind_again(&mut self, seen: &mut u32) -> Parsed<()> {
        if *seen & 1 != 0 {
            return Err(Fault::new("it stands twice").inside("kind"));
        }
        *seen |= 1;
        self.bare().map(|_| ())
    }

    /// Puts a field behind the run: one, or one for each element; none for JSON's null of
    /// an optional one.
    fn field(&mut self, field: &Field, run: &mut Vec<u8>) -> Parsed<()> {
        match field.presence {
            Presence::Repeated => {
                let mut index = 0;
                self.list(|parser| {
                    let element = parser.tagged(field, run);
                    index += 1;
                    element.map_err(|fault| fault.inside(&format!("[{}]", index - 1)))
                })?;
            }
            Presence::Optional if self.is_null() => {}
            _ => self.tagged(field, run)?,
        }
        let follows = self.peek().filter(|byte| !VALUE_ENDS.has(*byte));
        if follows.is_some() {
            return Err(Fault::new(format!(
                "{} stands behind the value",
                self.rest()
            )));
        }
        Ok(())
    }

    fn is_null(&mut self) -> bool {
        let rest = self.line.get(self.at..).unwrap_or_default();
        let is = self.style == Style::Json && rest.starts_with(b"null");
        self.at += if is { 4 } else { 0 };
        is
    }

    fn tagged(&mut self, field: &Field, run: &mut Vec<u8>) -> Parsed<()> {
        run.extend_from_slice(&[field.tag, 0, 0]);
        let start = run.len();
        self.value(&field.form, run)?;
        if !matches!(field.form, Form::Shape(_)) {
            clip(run, start, &field.form);
        }
        let length = u16::try_from(run.len() - start).unwrap_or(u16::MAX);
        if let Some(place) = run.get_mut(start - 2..start) {
            place.copy_from_slice(&length.to_be_bytes());
        }
        Ok(())
    }

    fn value(&mut self, form: &Form, run: &mut Vec<u8>) -> Parsed<()> {
        match form {
            Form::U16 => self.number(0, u16::MAX.into(), 2, run),
            Form::U64 => self.number(0, u64::MAX.into(), 8, run),
            Form::I16 => self.number(i16::MIN.into(), i16::MAX.into(), 2, run),
            Form::I32 => self.number(i32::MIN.into(), i32::MAX.into(), 4, run),
            Form::I64 | Form::Offset => self.number(i64::MIN.into(), i64::MAX.into(), 8, run),
            Form::F64 => self.double(run),
            Form::Id => self.id(run),
            Form::Bool => self.bool(run),
            Form::Enum(names) => self.choice(names, run),
            Form::Text | Form::Key => self.string(run),
            Form::Bytes => self.bytes(run),
            Form::Nodes | Form::NodeSet => {
                self.list(|parser| parser.number(0, u64::MAX.into(), 8, run))
            }
            Form::Ids => self.list(|parser| parser.id(run)),
            Form::Shape(shape) => {
                self.expect(b'{')?;
                self.fields(shape, Some(b'}'), false, run)
            }
        }
    }

    fn list(&mut self, mut element: impl FnMut(&mut Self) -> Parsed<()>) -> Parsed<()> {
        self.expect(b'[')?;
        self.blanks();
        if self.takes(b']') {
            return Ok(());
        }
        loop {
            self.blanks();
            element(self)?;
            self.blanks();
            if self.takes(b']') {
                return Ok(());
            }
            self.expect(b',')?;
        }
    }

    /// Passes over a value of JSON, whatever it is: up to the comma or the brace behind it.
    fn pass_value(&mut self) -> Parsed<()> {
        let mut depth = 0_usize;
        let mut passed = Vec::new();
        while let Some(byte) = self.peek() {
            match byte {
                b'"' => {
                    passed.clear();
                    self.string(&mut passed)?;
                    continue;
                }
                b'[' | b'{' => depth += 1,
                b',' | b'}' | b']' if depth == 0 => return Ok(()),
                b']' | b'}' => depth -= 1,
                _ => {}
            }
            self.at += 1;
        }
        Ok(())
    }
}

fn kind_named(word: &[u8]) -> Parsed<(u8, &'static Shape)> {
    let mut numbers = 1_u8..;
    let mut kinds = KINDS.iter().zip(&mut numbers);
    let found = kinds.find(|(shape, _)| shape.name.as_bytes() == word);
    found
        .map(|(shape, number)| (number, *shape))
        .ok_or_else(|| Fault::new(format!("unknown kind {}", shown(word))))
}

/// The field of a name. The one behind the last one is tried first.
fn named(shape: &Shape, name: &[u8], last: u8) -> Parsed<&'static Field> {
    let fields: &'static [Field] = shape.fields;
    let is = |field: &&'static Field| field.name.as_bytes() == name;
    let next = fields.get(usize::from(last)).filter(is);
    let found = next.or_else(|| fields.iter().find(is));
    found.ok_or_else(|| unknown_field(shape, name))
}

fn unknown_field(shape: &Shape, name: &[u8]) -> Box<Fault> {
    let names: Vec<&str> = shape.fields.iter().map(|field| field.name).collect();
    let name = String::from_utf8_lossy(name.get(..64).unwrap_or(name));
    Fault::new(format!(
        "{} has no such field, but {}",
        shape.name,
        names.join(", ")
    ))
    .inside(&name)
}

/// Puts the fields of a run from a place on into the order of their tags; those of one
/// tag stay in theirs.
fn order(run: &mut Vec<u8>, start: usize) {
    let unordered = run.split_off(start);
    let mut fields: Vec<(u8, &[u8])> = Run(&unordered).collect();
    fields.sort_by_key(|(tag, _)| *tag);
    for (tag, value) in fields {
        put(run, tag, value);
    }
}

/// Puts a field behind a run. Its value is below 2^16 bytes.
pub fn put(run: &mut Vec<u8>, tag: u8, value: &[u8]) {
    let length = u16::try_from(value.len()).unwrap_or(u16::MAX);
    run.push(tag);
    run.extend_from_slice(&length.to_be_bytes());
    run.extend_from_slice(value);
}

/// What stands in a line, for a reason: quoted, and shortened.
pub fn shown(bytes: &[u8]) -> String {
    const MOST: usize = 40;
    if bytes.is_empty() {
        return "nothing".into();
    }
    let mut out = Vec::new();
    let text = String::from_utf8_lossy(bytes.get(..MOST).unwrap_or(bytes));
    crate::spell::string(&mut out, text.as_bytes());
    let dots = if bytes.len() > MOST { ".." } else { "" };
    format!("{}{dots}", String::from_utf8_lossy(&out))
}

/// The shape of a kind's number, which `line` gave.
pub fn shape_of(number: u8) -> &'static Shape {
    table::kind(number).unwrap_or(KINDS[0])
}
