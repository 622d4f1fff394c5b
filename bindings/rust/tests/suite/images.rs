//! Images at the limits: of capacity, of room, and bytes that are no image.

use crate::samples::{one_of_each, partition, topic};
use jeghatuf::shapes::Partition;
use jeghatuf::{
    Image, LEAST_CAPACITY, MOST_CAPACITY, NO_OFFSET, Refusal, Stopped, compare, records,
    with_offset, without_offset,
};

#[test]
fn capacities_have_two_ends() {
    for capacity in [0, LEAST_CAPACITY - 1, MOST_CAPACITY + 1, usize::MAX] {
        assert_eq!(Image::open(capacity), Err(Refusal::NoImage));
        assert_eq!(compare(capacity, &[], &[]), Err(Refusal::NoImage));
        let stopped = Stopped {
            refusal: Refusal::NoImage,
            place: None,
        };
        assert_eq!(Image::restore(capacity, &[]), Err(stopped));
    }
    for capacity in [LEAST_CAPACITY, MOST_CAPACITY] {
        let image = Image::open(capacity).unwrap();
        assert_eq!(image.capacity(), capacity);
        assert_eq!(image.log_offset(), Ok(NO_OFFSET));
        assert_eq!(image.features_epoch(), Ok(-1));
        assert_eq!(image.short_count(), Ok(0));
    }
}

#[test]
fn other_bytes_are_no_image() {
    let image = Image::open(200).unwrap();
    for at in 0..200 {
        let mut bytes = image.as_bytes().to_vec();
        bytes[at] ^= 1;
        // the epoch and the kraft version may be others
        let free = (16..26).contains(&at);
        assert_eq!(Image::from_bytes(bytes).is_ok(), free, "byte {at}");
    }
    assert_eq!(Image::from_bytes([]), Err(Refusal::NoImage));
    assert_eq!(Image::from_bytes(vec![0; 144]), Err(Refusal::NoImage));
}

/// An image of the format before has no log offset and version 1; its snapshot is of the old
/// form, which is taken along.
#[test]
fn the_former_version_is_refused_and_its_snapshot_taken() {
    let mut bytes = Image::open(144).unwrap().as_bytes().to_vec();
    bytes[7] = 1;
    bytes[56..64].fill(0);
    assert_eq!(Image::from_bytes(bytes), Err(Refusal::NoImage));

    let old = Vec::from(topic("plan-0042", 1).record().unwrap());
    assert_eq!(
        Image::restore(4_096, &old).unwrap_err().refusal,
        Refusal::MisplacedOffset
    );
    let image = Image::restore(4_096, &with_offset(&old, 7).unwrap()).unwrap();
    assert_eq!(image.log_offset(), Ok(7));
    assert!(image.topic("plan-0042").unwrap().is_some());
    assert_eq!(without_offset(&image.snapshot().unwrap()).unwrap().1, 7);
}

#[test]
fn records_of_all_kinds_are_applied_and_restored() {
    let mut image = Image::open(MOST_CAPACITY).unwrap();
    let mut all = one_of_each();
    all.retain(|fields| fields.kind().number() < 26);
    for (fields, offset) in all.iter().zip(0..) {
        image.apply(offset, fields.record().unwrap()).unwrap();
        let snapshot = image.snapshot().unwrap();
        let restored = Image::restore(MOST_CAPACITY, &snapshot).unwrap();
        assert_eq!(restored.log_offset(), Ok(offset));
        assert_eq!(restored.snapshot().unwrap(), snapshot);
        let found = records(&snapshot).filter(Result::is_ok).count();
        assert_eq!(found, records(&snapshot).count());
    }
}

/// A full image of long names: the listing for a downgrade is longer than the image, and
/// done after one pass.
#[test]
fn outputs_have_room_for_what_is_written() {
    let name = "n".repeat(249);
    let mut image = Image::open(MOST_CAPACITY).unwrap();
    let mut offset = 0;
    loop {
        let number = i32::try_from(offset).unwrap();
        let record = partition(&name, number, 64).record().unwrap();
        match image.apply(offset, &record) {
            Ok(()) => offset += 1,
            Err(refusal) => break assert_eq!(refusal, Refusal::Full),
        }
    }
    let found: Option<Partition> = image.partition(&name, 0).unwrap();
    assert_eq!(found, Some(partition(&name, 0, 64)));
    let listing = image.downgrade(16).unwrap();
    assert!(listing.len() > image.capacity());
    for record in records(&listing) {
        image.apply(offset, record.unwrap()).unwrap();
        offset += 1;
    }
    assert_eq!(image.downgrade(16).unwrap(), []);
}
