//! The harness's own test of images, on the cases and on generated histories.

use krabka_metadata::{MetadataImage, MetadataRecord};
use oracle::cases::cases;
use oracle::exact::is_image;
use oracle::generate::{Generator, Knobs};
use oracle::image::{MOST_CAPACITY, image, layout, weight};
use oracle::layout::{HEAD_SIZE, OFFSET};
use oracle::observe::{Observed, Witness, observe};
use uuid::Uuid;
use wire::{HEADER, NO_RECORD, decode, encode};

const HISTORIES: u64 = 200;
const STEPS: usize = 60;

/// The contents after a history; every third history is not validated, and
/// has old names.
fn contents(seed: u64) -> Observed {
    let knobs = Knobs {
        validated: !seed.is_multiple_of(3),
        old_names: seed.is_multiple_of(3),
        ..Knobs::default()
    };
    let mut image = MetadataImage::new(Uuid::nil());
    let mut witness = Witness::default();
    for record in Generator::new(seed, knobs).history(STEPS) {
        if knobs.applies(&image, &record) {
            witness.see(&record);
            image.apply(&record);
        }
    }
    observe(&image, &witness)
}

#[test]
fn cases_have_their_answers() {
    let cases = cases();
    for case in &cases {
        assert_eq!(is_image(&case.bytes), case.is_image, "{}", case.name);
    }
    let images = cases.iter().filter(|case| case.is_image).count();
    assert!(images > 60, "{images} images");
    assert!(
        cases.len() - images > 250,
        "{} others",
        cases.len() - images
    );
}

#[test]
fn images_of_histories_are_images() {
    let mut met = 0;
    for seed in 0..HISTORIES {
        let contents = contents(seed);
        let weight = weight(&contents);
        for capacity in [weight, weight + 1, MOST_CAPACITY] {
            if let Some(image) = image(&contents, capacity) {
                assert!(is_image(&image), "seed {seed} at {capacity}");
                met += 1;
            }
        }
        if weight <= MOST_CAPACITY {
            let too_small = layout(&contents).bytes(weight - 1);
            assert!(!is_image(&too_small), "seed {seed} below {weight}");
        }
    }
    assert!(met > HISTORIES, "{met} images");
}

/// Entries moved or repeated are no image, whatever they are.
#[test]
fn moved_and_repeated_entries_are_refused() {
    for seed in 0..40 {
        let good = layout(&small_contents(seed));
        let room = 2 * good.used();
        assert!(is_image(&good.bytes(room)), "seed {seed}");
        for place in 0..good.entries.len() {
            let mut repeated = good.clone();
            repeated.entries.insert(place, good.entries[place].clone());
            let bytes = repeated.bytes(room);
            assert!(!is_image(&bytes), "seed {seed}: entry {place} repeated");
            let mut swapped = good.clone();
            swapped.entries.swap(place.saturating_sub(1), place);
            let bytes = swapped.bytes(room);
            let unmoved = place == 0;
            assert_eq!(is_image(&bytes), unmoved, "seed {seed}: entry {place}");
        }
    }
}

/// Of an image with one byte changed: the header's numbers may be any, but for a
/// log offset below -1, its other bytes and the zeros are fixed, and entries that are still accepted
/// are the bytes of their records.
#[test]
fn one_byte_changed() {
    let (mut kept, mut lost) = (0, 0);
    for seed in 0..8 {
        let contents = small_contents(seed);
        let good = image(&contents, weight(&contents) + 8).expect("a small image");
        let used = layout(&contents).used();
        for at in 0..good.len() {
            for change in [1, 0x80, 0xff] {
                let mut changed = good.clone();
                changed[at] ^= change;
                let accepted = is_image(&changed);
                match at {
                    16..26 => assert!(accepted, "seed {seed}: byte {at}"),
                    _ if OFFSET.contains(&at) => {
                        assert_eq!(accepted, offset(&changed) >= NO_RECORD, "{seed}: {at}");
                    }
                    _ if at < HEAD_SIZE || at >= used => assert!(!accepted, "{seed}: byte {at}"),
                    _ if accepted => assert_records(&changed[HEAD_SIZE..used]),
                    _ => {}
                }
                *(if accepted { &mut kept } else { &mut lost }) += 1;
            }
        }
    }
    assert!(kept > 100 && lost > 1_000, "{kept} kept, {lost} lost");
}

fn offset(image: &[u8]) -> i64 {
    i64::from_be_bytes(image[OFFSET].try_into().expect("eight bytes"))
}

/// Each entry but a topic's is what its decoded record is encoded to.
fn assert_records(entries: &[u8]) {
    let mut rest = entries;
    while !rest.is_empty() {
        let body = usize::from(u16::from_be_bytes([rest[1], rest[2]]));
        let (entry, after) = rest.split_at(HEADER + body);
        if entry[0] != 1 {
            let (record, _) = decode(entry).expect("a stored record");
            assert_eq!(encode(&record).expect("its bytes"), entry);
        }
        rest = after;
    }
}

/// The contents after few records, all applied, without values at the limits.
fn small_contents(seed: u64) -> Observed {
    let knobs = Knobs {
        extreme: 0,
        validated: false,
        old_names: true,
        ..Knobs::default()
    };
    let records: Vec<MetadataRecord> = Generator::new(seed, knobs).history(16);
    let mut witness = Witness::default();
    records.iter().for_each(|record| witness.see(record));
    observe(
        &MetadataImage::from_records(Uuid::nil(), &records),
        &witness,
    )
}
