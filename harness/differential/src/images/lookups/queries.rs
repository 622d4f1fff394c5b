//! What is asked for: what is stored, and what is near it.

use std::collections::BTreeSet;

use krabka_metadata::MetadataImage;

/// The names of topics and of partitions, and names near them.
pub fn names(image: &MetadataImage) -> BTreeSet<String> {
    let topics = image.topics().map(|topic| topic.name.clone());
    let partitions = image.all_partitions().map(|part| part.topic.clone());
    let stored: BTreeSet<String> = topics.chain(partitions).collect();
    let mut names: BTreeSet<String> = stored.iter().flat_map(|name| near_name(name)).collect();
    names.extend(["", "absent", "__room"].map(str::to_owned));
    names.insert("n".repeat(255));
    names.extend(stored);
    names
}

/// One character less, and one more where there is room.
pub fn near_name(name: &str) -> Vec<String> {
    let mut shorter = name.to_owned();
    shorter.pop();
    let longer = format!("{name}\u{0}");
    let near = [shorter, longer].into_iter();
    near.filter(|name| name.len() <= 255).collect()
}

/// The ids of topics, ids near them, and byte strings that are no ids.
pub fn ids(image: &MetadataImage) -> BTreeSet<[u8; 16]> {
    let stored = image.topics().map(|topic| *topic.topic_id.as_bytes());
    let mut ids: BTreeSet<[u8; 16]> = stored.flat_map(near_id).collect();
    ids.extend([[0; 16], [0xff; 16]]);
    ids
}

fn near_id(id: [u8; 16]) -> [[u8; 16]; 3] {
    let changed = |at: usize, bit: u8| {
        let mut near = id;
        near[at] ^= bit;
        near
    };
    [id, changed(0, 0x80), changed(15, 1)]
}

/// The places of partitions, the numbers beside them, and other places.
pub fn partitions(image: &MetadataImage) -> BTreeSet<(String, i32)> {
    let mut places = BTreeSet::new();
    for part in image.all_partitions() {
        for step in [-1, 0, 1] {
            let number = part.partition.wrapping_add(step);
            places.insert((part.topic.clone(), number));
        }
    }
    for name in names(image) {
        for number in [0, -1, i32::MIN, i32::MAX] {
            places.insert((name.clone(), number));
        }
    }
    places
}

/// The brokers' nodes, the nodes beside them, and other ones.
pub fn nodes(image: &MetadataImage) -> BTreeSet<u64> {
    let mut nodes = BTreeSet::from([0, 1, 1 << 63, u64::MAX]);
    for broker in image.brokers() {
        let node = broker.node_id.0;
        nodes.extend([node.wrapping_sub(1), node, node.wrapping_add(1)]);
    }
    nodes
}
