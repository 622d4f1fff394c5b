//! Records drawn by the table of docs/FORMAT.md, the same ones in every run.

use std::collections::BTreeSet;

use crate::format::Row;

/// Numbers that look drawn (splitmix64).
pub struct Draw {
    state: u64,
    rows: Vec<Row>,
}

/// Characters that are spelled in different ways, or that other programs stumble over.
const CHARACTERS: &[char] = &[
    'a',
    'Z',
    '0',
    '-',
    '.',
    '_',
    ' ',
    '"',
    '\\',
    '/',
    '\'',
    '=',
    ',',
    '{',
    '}',
    '[',
    ']',
    '#',
    ':',
    '\u{0}',
    '\u{1}',
    '\u{8}',
    '\t',
    '\n',
    '\u{b}',
    '\u{c}',
    '\r',
    '\u{1b}',
    '\u{1f}',
    '\u{7f}',
    '\u{80}',
    '\u{9b}',
    '\u{9f}',
    '\u{a0}',
    'ä',
    'ß',
    '€',
    '–',
    '\u{2027}',
    '\u{2028}',
    '\u{2029}',
    '\u{202e}',
    '\u{202f}',
    '\u{2065}',
    '\u{2066}',
    '\u{2069}',
    '\u{206a}',
    '\u{fffd}',
    '\u{feff}',
    '\u{ffff}',
    '𝄞',
    '\u{10ffff}',
];

impl Draw {
    pub fn new(seed: u64, rows: Vec<Row>) -> Self {
        Self { state: seed, rows }
    }

    pub fn number(&mut self) -> u64 {
        self.state = self.state.wrapping_add(0x9e37_79b9_7f4a_7c15);
        let mixed = (self.state ^ self.state >> 30).wrapping_mul(0xbf58_476d_1ce4_e5b9);
        let mixed = (mixed ^ mixed >> 27).wrapping_mul(0x94d0_49bb_1331_11eb);
        mixed ^ mixed >> 31
    }

    pub fn below(&mut self, bound: usize) -> usize {
        (self.number() % bound as u64) as usize
    }

    /// Whether one of so many draws does it.
    fn once_in(&mut self, many: usize) -> bool {
        self.below(many) == 0
    }

    /// A count up to a limit: mostly a few, and now and then the limit itself.
    fn count(&mut self, limit: usize) -> usize {
        match self.below(40) {
            0 => limit,
            1 => self.below(limit + 1),
            _ => self.below(4.min(limit + 1)),
        }
    }

    /// A record of a kind's number.
    pub fn record(&mut self, kind: usize) -> Vec<u8> {
        let start = format!("{kind} ");
        let shape = self.rows.iter().find(|row| row.shape.starts_with(&start));
        let shape = shape.unwrap().shape.clone();
        let body = self.run(&shape, &[]);
        let length = u16::try_from(body.len()).unwrap();
        let mut record = vec![u8::try_from(kind).unwrap()];
        record.extend(length.to_be_bytes());
        record.extend(body);
        record
    }

    fn rows_of(&self, shape: &str) -> Vec<Row> {
        let of_kind = format!(" {shape}");
        let is_of = |row: &&Row| row.shape == shape || row.shape.ends_with(&of_kind);
        self.rows.iter().filter(is_of).cloned().collect()
    }

    /// A run of a shape's fields, with its key if it has one.
    fn run(&mut self, shape: &str, key: &[u8]) -> Vec<u8> {
        let mut run = Vec::new();
        for row in self.rows_of(shape) {
            let values = match row.presence.strip_prefix("up to ") {
                Some(limit) => self.elements(&row.form, limit.parse().unwrap()),
                None if row.form == "key" => vec![key.to_vec()],
                None if row.presence == "optional" && self.once_in(2) => Vec::new(),
                None => vec![self.value(&row)],
            };
            for value in values {
                run.push(row.tag);
                run.extend(u16::try_from(value.len()).unwrap().to_be_bytes());
                run.extend(value);
            }
        }
        run
    }

    /// Up to so many elements of a shape, with ascending keys if it is a map's.
    fn elements(&mut self, shape: &str, limit: usize) -> Vec<Vec<u8>> {
        let count = self.count(limit);
        let rows = self.rows_of(shape);
        if rows[0].form == "key" {
            let size = rows[0].size.unwrap();
            let keys: BTreeSet<Vec<u8>> = (0..count).map(|_| self.text(size)).collect();
            return keys.iter().map(|key| self.run(shape, key)).collect();
        }
        (0..count).map(|_| self.run(shape, &[])).collect()
    }

    fn value(&mut self, row: &Row) -> Vec<u8> {
        let size = row.size.unwrap_or(0);
        match row.form.as_str() {
            "bool" | "enum" => vec![self.below(size) as u8],
            "u16" | "u64" | "i16" | "i32" | "i64" => self.integer(size),
            "f64" => self.double(),
            "id" => self.bytes(16),
            "string" => self.text(size),
            "bytes" => {
                let count = self.count(size);
                self.bytes(count)
            }
            "nodes" | "node set" => self.nodes(size),
            "ids" => {
                let count = self.count(size);
                self.bytes(16 * count)
            }
            "offset" => match self.below(4) {
                0 => (-1_i64).to_be_bytes().into(),
                _ => (self.number() >> 1).to_be_bytes().into(),
            },
            shape => self.run(shape, &[]),
        }
    }

    fn bytes(&mut self, count: usize) -> Vec<u8> {
        (0..count).map(|_| self.number() as u8).collect()
    }

    /// A number of so many bytes: small, at an end, or any.
    fn integer(&mut self, width: usize) -> Vec<u8> {
        let number = match self.below(8) {
            0 => 0,
            1 => u64::MAX,
            2 => 1 << (8 * width - 1),
            3 => (1 << (8 * width - 1)) - 1,
            4 => self.number(),
            _ => self.number() % 1_000,
        };
        number.to_be_bytes()[8 - width..].to_vec()
    }

    fn double(&mut self) -> Vec<u8> {
        let drawn = f64::from_bits(self.number());
        let double = match self.below(12) {
            0 => 0.0,
            1 => -0.0,
            2 => f64::INFINITY,
            3 => f64::NEG_INFINITY,
            4 => f64::from_bits(0x7ff0_0000_0000_0001 | self.number() >> 12),
            5 => f64::from_bits(self.number() >> 12),
            6 => 9_007_199_254_740_993.0,
            7 => f64::MAX,
            8 => self.below(1_000_000) as f64 / 1_000.0,
            9 => self.below(10_000_000) as f64,
            _ => drawn,
        };
        double.to_be_bytes().into()
    }

    /// Nodes, none of them twice.
    fn nodes(&mut self, limit: usize) -> Vec<u8> {
        let mut nodes: Vec<u64> = Vec::new();
        for _ in 0..self.count(limit) {
            let node = match self.once_in(8) {
                true => self.number(),
                false => self.number() % 1_000,
            };
            if !nodes.contains(&node) {
                nodes.push(node);
            }
        }
        nodes.into_iter().flat_map(u64::to_be_bytes).collect()
    }

    /// A text of at most so many bytes: mostly a name, also of any characters.
    fn text(&mut self, limit: usize) -> Vec<u8> {
        let is_name = !self.once_in(4);
        let length = match self.below(20) {
            0 => limit,
            1 => 0,
            _ => self.below(24),
        };
        let mut text = String::new();
        loop {
            let character = match is_name {
                true => char::from(b'a' + self.below(26) as u8),
                false => self.character(),
            };
            if text.len() + character.len_utf8() > length {
                return text.into();
            }
            text.push(character);
        }
    }

    fn character(&mut self) -> char {
        match self.below(3) {
            0 => char::from_u32(self.below(0x11_0000) as u32).unwrap_or('x'),
            _ => CHARACTERS[self.below(CHARACTERS.len())],
        }
    }
}
