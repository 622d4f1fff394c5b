//! A viewer's operations on a full image, each beside the plain one.

use std::hint::black_box;

use super::times::Times;
use crate::histories::listed;
use crate::images::Full;
use crate::{
    freeze, partition, snapshot, topic, view_freeze, view_partition, view_snapshot, view_topic,
};

/// Prefixes that show no name.
const OTHERS: [&str; 7] = [
    "\u{1}a", "\u{1}b", "\u{1}c", "\u{1}d", "\u{1}e", "\u{1}f", "\u{1}g",
];

pub struct View {
    pub name: &'static str,
    /// Of the viewer's operation, and of the plain one.
    pub times: Times,
}

impl View {
    /// The better times of both.
    pub fn best(self, other: &Self) -> Self {
        Self {
            times: self.times.best(other.times),
            ..self
        }
    }
}

pub fn measure(full: &Full) -> Vec<View> {
    let eight: Vec<&str> = OTHERS.into_iter().chain([""]).collect();
    let mut views = vec![
        snapshots(
            full,
            "snapshot, one prefix, which shows nothing",
            &OTHERS[..1],
        ),
        snapshots(full, "snapshot, one prefix, which shows all", &[""]),
        snapshots(
            full,
            "snapshot, eight prefixes, the last of which shows all",
            &eight,
        ),
    ];
    views.extend(lookups(full, &listed(&eight)));
    views
}

fn snapshots(full: &Full, name: &'static str, prefixes: &[&str]) -> View {
    let list = listed(prefixes);
    let (mut one, mut other) = (vec![0; full.bytes.len()], vec![0; full.bytes.len()]);
    view_snapshot(&full.bytes, &list, &mut one).expect("an image");
    View {
        name,
        times: Times::of(
            || view_snapshot(black_box(&full.bytes), &list, &mut one),
            || snapshot(black_box(&full.bytes), &mut other),
        ),
    }
}

fn lookups(full: &Full, list: &[u8]) -> [View; 3] {
    let (image, name) = (&full.bytes[..], full.name.as_bytes());
    let (mut one, mut other) = ([0; 1_024], [0; 1_024]);
    let topics = Times::of(
        || view_topic(black_box(image), list, name, &mut one),
        || topic(black_box(image), name, &mut other),
    );
    let partitions = Times::of(
        || view_partition(black_box(image), list, name, 1, &mut one),
        || partition(black_box(image), name, 1, &mut other),
    );
    let freezes = Times::of(
        || view_freeze(black_box(image), list, name, &mut one),
        || freeze(black_box(image), name, &mut other),
    );
    [
        ("topic by name, eight prefixes", topics),
        ("partition, eight prefixes", partitions),
        ("freeze, eight prefixes", freezes),
    ]
    .map(|(name, times)| View { name, times })
}
