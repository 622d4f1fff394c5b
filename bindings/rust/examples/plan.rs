//! Reads a file of records into an image, restarts it, and says which partitions of a
//! plan exist before and after: partition 0 is the plan's room list, partition 1 its load
//! sheet. `example/plan.c` does the same in C.

use std::error::Error;
use std::{env, fs};

use jeghatuf::{Image, records, with_stack};

const CAPACITY: usize = 4_096;
const PLAN: &str = "plan-0042";

type Answer<T> = Result<T, Box<dyn Error + Send + Sync>>;

fn main() -> Answer<()> {
    let file = env::args().nth(1).ok_or("usage: plan FILE")?;
    let run = fs::read(&file).map_err(|reason| format!("{file}: {reason}"))?;
    with_stack(|| plan(&run))?
}

fn plan(run: &[u8]) -> Answer<()> {
    let image = taken(run)?;
    say(&image, "before the restart")?;
    let restored = Image::restore(CAPACITY, &image.snapshot()?)?;
    say(&restored, "after the restart")
}

/// Gives each record to Validate and, where that accepts it, to Apply. Its log offset is
/// its number, from 0.
fn taken(run: &[u8]) -> Answer<Image> {
    let mut image = Image::open(CAPACITY)?;
    let (mut at, mut count, mut applied) = (0, 0, 0);
    for record in records(run) {
        let record = record?;
        let verdict = image.validate(&record);
        match verdict.and_then(|()| image.apply(count, &record)) {
            Ok(()) => applied += 1,
            Err(refusal) => println!("byte {at}: refused, {}", refusal.number()),
        }
        at += record.as_bytes().len();
        count += 1;
    }
    println!("{count} records, {applied} applied");
    Ok(image)
}

/// Says whether partitions 0 and 1 exist, which node leads them, and how far the image got
/// in the log.
fn say(image: &Image, when: &str) -> Answer<()> {
    let exists = |number| {
        let partition = image.partition(PLAN, number)?;
        Ok::<_, jeghatuf::Refusal>(match partition {
            Some(partition) => format!("yes, led by {}", partition.leader),
            None => "no".into(),
        })
    };
    let (rooms, loads, offset) = (exists(0)?, exists(1)?, image.log_offset()?);
    println!("{PLAN}, {when}: partition 0 {rooms}, partition 1 {loads}; log offset {offset}");
    Ok(())
}
