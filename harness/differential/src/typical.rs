//! Typical records, to time readers on.

use wire::field;

fn run(fields: &[(u8, &[u8])]) -> Vec<u8> {
    fields
        .iter()
        .flat_map(|(tag, value)| field(*tag, value))
        .collect()
}

/// The elements of a repeated field, each made from a name.
fn elements(tag: u8, count: u8, make: impl Fn(&[u8]) -> Vec<u8>) -> Vec<u8> {
    (0..count)
        .flat_map(|n| field(tag, &make(format!("name.{n}").as_bytes())))
        .collect()
}

fn topic() -> Vec<u8> {
    let fields: [(u8, &[u8]); 4] = [(1, b"plan-1"), (2, &[7; 16]), (3, &[0; 4]), (4, &[0, 3])];
    field(1, &run(&fields))
}

/// A partition whose replicas are all in sync.
fn partition(replicas: u64) -> Vec<u8> {
    let nodes: Vec<u8> = (1..=replicas).flat_map(u64::to_be_bytes).collect();
    let fields: [(u8, &[u8]); 10] = [
        (1, b"plan-1"),
        (2, &[0; 4]),
        (3, &[0; 8]),
        (4, &nodes),
        (5, &nodes),
        (6, &[0; 4]),
        (7, &[]),
        (8, &[]),
        (9, &[9; 48]),
        (10, &[0; 4]),
    ];
    field(2, &run(&fields))
}

fn broker() -> Vec<u8> {
    let before: [(u8, &[u8]); 5] = [
        (1, &[1; 8]),
        (2, &[0; 8]),
        (3, &[5; 16]),
        (4, b"broker-1.example"),
        (5, &[35, 132]),
    ];
    let between: [(u8, &[u8]); 3] = [(8, &[3; 16]), (9, &[0]), (10, &[0])];
    let endpoint = |name: &[u8]| {
        run(&[
            (1, name),
            (2, b"broker-1.example"),
            (3, &[35, 132]),
            (4, &[0]),
        ])
    };
    let feature = |name: &[u8]| run(&[(1, name), (2, &[0, 1]), (3, &[0, 9])]);
    let body = [
        run(&before),
        elements(7, 2, endpoint),
        run(&between),
        elements(12, 4, feature),
    ];
    field(3, &body.concat())
}

fn config() -> Vec<u8> {
    let pair = |name: &[u8]| run(&[(1, name), (2, b"a plain value")]);
    field(5, &[field(1, b"plan-1"), elements(2, 8, pair)].concat())
}

/// A topic, partitions with 3 and with 64 replicas, a broker with 2 endpoints
/// and 4 features, and a config of 8 pairs, by name.
pub fn typical() -> [(&'static str, Vec<u8>); 5] {
    [
        ("topic", topic()),
        ("partition, 3 replicas", partition(3)),
        ("partition, 64 replicas", partition(64)),
        ("broker, 2 endpoints, 4 features", broker()),
        ("config, 8 pairs", config()),
    ]
}
