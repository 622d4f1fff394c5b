//! The tables of the figures, in Markdown.

use super::conversions::Conversion;
use super::freezes::Freezes;
use super::logs::Log;
use super::numbers::{ratio, size, time};
use super::recordings::{RESTORED, Recordings};
use super::records::Record;
use super::rows::Row;
use super::times::Times;
use super::views::View;
use super::worst::Worst;
use super::{Figures, PASSES, SIZES};
use crate::timing::ROUNDS;

pub fn tables(figures: &Figures) -> String {
    [
        images(&figures.counts),
        proved(&figures.rows),
        "The same calls in Rust, and proved/Rust:\n".to_owned(),
        beside(&figures.rows),
        "Read and Write, which take no image, beside the harness's own:\n".to_owned(),
        records(&figures.records),
        "A snapshot's two forms, beside Read of the run's records in a row and the harness's own:\n"
            .to_owned(),
        conversions(&figures.conversions),
        "Worst cases found, at 64 KB, beside the same call on the plain full image:\n".to_owned(),
        worst(&figures.worst, &figures.rows),
        "The freeze of a name from a run of records, beside other calls of the library:\n"
            .to_owned(),
        logs(&figures.logs),
        "The freezes of a list of 256 names on full images of 64 KB, by how many freezes these have:\n"
            .to_owned(),
        freezes(&figures.freezes),
        "A viewer's operations on the full image of 64 KB, beside the plain ones:\n".to_owned(),
        views(&figures.views),
        "Two recordings of the records that fill 64 KB, beside other calls that apply as many:\n"
            .to_owned(),
        recordings(&figures.recordings, &figures.rows),
        "Kafka's record bytes, read and written, beside the harness's own:\n".to_owned(),
        records(&figures.kafka),
    ]
    .join("\n")
}

/// What the next tables show.
fn images(counts: &[usize; SIZES.len()]) -> String {
    let [first, second, third, last] = counts;
    format!(
        "One call on a full image, the best of {PASSES} passes of {ROUNDS} rounds; the images hold {first}, {second}, {third} and {last} records. \
         Growth is from 16 KB to 64 KB: 4 is linear.\n"
    )
}

fn proved(rows: &[Row]) -> String {
    let sizes = SIZES.map(size).join(" | ");
    let head = format!("operation | {sizes} | growth | Rust, 64 KB | proved/Rust, 64 KB");
    let rows = rows.iter().map(|row| {
        let [.., last] = row.times;
        let mut cells = vec![row.name.to_owned()];
        cells.extend(row.times.map(|times| time(times.proved)));
        cells.extend([ratio(row.growth()), time(last.rust), ratio(last.ratio())]);
        cells
    });
    table(&head, 1, rows)
}

fn beside(rows: &[Row]) -> String {
    let sizes = SIZES.map(size).join(" | ");
    let ratios = SIZES.map(|bytes| format!("ratio, {}", size(bytes)));
    let head = format!("operation | in Rust | {sizes} | {}", ratios.join(" | "));
    let rows = rows.iter().map(|row| {
        let mut cells = vec![row.name.to_owned(), row.beside.to_owned()];
        cells.extend(row.times.map(|times| time(times.rust)));
        cells.extend(row.times.map(|times| ratio(times.ratio())));
        cells
    });
    table(&head, 2, rows)
}

fn records(records: &[Record]) -> String {
    let head = "record | bytes | Read | Rust | ratio | Write | Rust | ratio";
    let rows = records.iter().map(|record| {
        let mut cells = vec![record.name.to_owned(), record.bytes.to_string()];
        for times in [record.read, record.write] {
            cells.extend([time(times.proved), time(times.rust), ratio(times.ratio())]);
        }
        cells
    });
    table(head, 1, rows)
}

fn conversions(conversions: &[Conversion]) -> String {
    let head = "operation | bytes | time | Read in a row | time/Read | Rust | proved/Rust";
    let rows = conversions.iter().map(|conversion| {
        let Conversion { times, read, .. } = conversion;
        vec![
            conversion.name.to_owned(),
            conversion.bytes.to_string(),
            time(times.proved),
            time(*read),
            ratio(times.proved / read),
            time(times.rust),
            ratio(times.ratio()),
        ]
    });
    table(head, 1, rows)
}

fn worst(cases: &[Worst], rows: &[Row]) -> String {
    let head = "call | time | plain image | worst/plain | Rust | proved/Rust";
    let rows = cases.iter().map(|case| {
        let plain = at_most_size(rows, case.plain);
        let Worst { name, times, .. } = case;
        vec![
            (*name).to_owned(),
            time(times.proved),
            time(plain.proved),
            ratio(times.proved / plain.proved),
            time(times.rust),
            ratio(times.ratio()),
        ]
    });
    table(head, 1, rows)
}

fn logs(logs: &[Log]) -> String {
    let head = "run | beside | time | time beside | ratio";
    let rows = logs.iter().map(|log| {
        let Log { name, times, .. } = log;
        vec![
            name.clone(),
            log.beside.to_owned(),
            time(times.proved),
            time(times.rust),
            ratio(times.ratio()),
        ]
    });
    table(head, 2, rows)
}

fn freezes(freezes: &[Freezes]) -> String {
    let head = "freezes | 256 names | one lookup | list/lookup | 256 lookups | \
                256 of the Rust's `topic_freeze` | proved/Rust";
    let rows = freezes.iter().map(|list| {
        let Freezes { times, single, .. } = list;
        vec![
            list.name.clone(),
            time(times.proved),
            time(*single),
            ratio(times.proved / single),
            time(list.singles),
            time(times.rust),
            ratio(times.ratio()),
        ]
    });
    table(head, 1, rows)
}

fn views(views: &[View]) -> String {
    let head = "viewer | time | plain | ratio";
    let rows = views.iter().map(|View { name, times }| {
        vec![
            (*name).to_owned(),
            time(times.proved),
            time(times.rust),
            ratio(times.ratio()),
        ]
    });
    table(head, 1, rows)
}

fn recordings(recordings: &[Recordings], rows: &[Row]) -> String {
    let head = format!(
        "recordings | records of each | time | {RESTORED} | ratio | as many of Apply | ratio"
    );
    let restored = at_most_size(rows, RESTORED);
    let rows = recordings.iter().map(|row| {
        vec![
            row.name.to_owned(),
            row.count.to_string(),
            time(row.compared),
            time(restored.proved),
            ratio(row.compared / restored.proved),
            time(row.applied),
            ratio(row.compared / row.applied),
        ]
    });
    table(&head, 1, rows)
}

/// The times of an operation on the largest image.
fn at_most_size(rows: &[Row], name: &str) -> Times {
    let row = rows.iter().find(|row| row.name == name);
    let [.., last] = row.expect("an operation that was measured").times;
    last
}

/// The first columns, so many as `words` says, hold words, the others numbers.
fn table(head: &str, words: usize, rows: impl Iterator<Item = Vec<String>>) -> String {
    let columns = head.split(" | ").count();
    let rule = [vec!["---"; words], vec!["---:"; columns - words]].concat();
    let lines = [head.to_owned(), rule.join(" | ")].into_iter();
    lines
        .chain(rows.map(|cells| cells.join(" | ")))
        .map(|line| format!("| {line} |\n"))
        .collect()
}
