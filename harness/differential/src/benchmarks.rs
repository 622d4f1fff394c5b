//! Times every operation of the proved library beside the Rust, on full images
//! of four sizes, and tells it in tables and in a plot.

mod changes;
mod conversions;
mod freezes;
mod kafka;
mod logs;
mod lookups;
mod numbers;
mod page;
mod plot;
mod recordings;
mod records;
mod restarts;
mod rows;
mod tables;
mod times;
mod views;
mod worst;

pub use page::Page;

use crate::images::Full;
use conversions::Conversion;
use freezes::{Freezes, Subjects};
use logs::Log;
use recordings::Recordings;
use records::Record;
use rows::Row;
use views::View;
use worst::Worst;

/// The capacities of the images, in bytes.
const SIZES: [usize; 4] = [1_024, 4_096, 16_384, 65_536];

/// All is measured so often, one after the other: what else the machine does
/// comes and goes, and the best time counts.
const PASSES: usize = 7;

/// What was measured.
pub struct Figures {
    /// How many records the image of each size holds.
    counts: [usize; SIZES.len()],
    rows: Vec<Row>,
    records: Vec<Record>,
    conversions: [Conversion; 2],
    worst: Vec<Worst>,
    logs: Vec<Log>,
    freezes: Vec<Freezes>,
    views: Vec<View>,
    recordings: Vec<Recordings>,
    kafka: Vec<Record>,
}

impl Figures {
    /// Takes about two minutes, and says on the way where it is.
    pub fn measure() -> Self {
        let images = SIZES.map(Full::of);
        let frozen = Subjects::new();
        let passes = (1..=PASSES).map(|pass| {
            eprintln!("pass {pass} of {PASSES}");
            Self {
                counts: images.each_ref().map(|full| full.image.to_records().len()),
                rows: rows::measure(&images),
                records: records::measure(),
                conversions: conversions::measure(&images[SIZES.len() - 1]),
                worst: worst::measure(&images[SIZES.len() - 1]),
                logs: logs::measure(&images[SIZES.len() - 1]),
                freezes: frozen.measure(),
                views: views::measure(&images[SIZES.len() - 1]),
                recordings: recordings::measure(&images[SIZES.len() - 1]),
                kafka: kafka::measure(),
            }
        });
        passes.reduce(Self::best).expect("a pass")
    }

    /// The better of both figures, each by itself.
    fn best(self, other: Self) -> Self {
        let rows = self.rows.into_iter().zip(other.rows);
        let records = self.records.into_iter().zip(other.records);
        let [to_new, to_old] = self.conversions;
        let [new, old] = &other.conversions;
        let worst = self.worst.into_iter().zip(other.worst);
        let logs = self.logs.into_iter().zip(other.logs);
        let freezes = self.freezes.into_iter().zip(other.freezes);
        let views = self.views.into_iter().zip(other.views);
        let recordings = self.recordings.into_iter().zip(other.recordings);
        let kafka = self.kafka.into_iter().zip(other.kafka);
        Self {
            counts: self.counts,
            rows: rows.map(|(one, other)| one.best(&other)).collect(),
            records: records.map(|(one, other)| one.best(&other)).collect(),
            conversions: [to_new.best(new), to_old.best(old)],
            worst: worst.map(|(one, other)| one.best(&other)).collect(),
            logs: logs.map(|(one, other)| one.best(&other)).collect(),
            freezes: freezes.map(|(one, other)| one.best(&other)).collect(),
            views: views.map(|(one, other)| one.best(&other)).collect(),
            recordings: recordings.map(|(one, other)| one.best(&other)).collect(),
            kafka: kafka.map(|(one, other)| one.best(&other)).collect(),
        }
    }

    /// The tables, in Markdown.
    pub fn tables(&self) -> String {
        tables::tables(self)
    }

    /// The plot, in SVG.
    pub fn plot(&self) -> String {
        plot::plot(&self.rows)
    }
}
