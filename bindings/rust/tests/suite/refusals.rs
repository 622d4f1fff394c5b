//! Every refusal, by the call that gives it.

use crate::samples::{freeze, partition, proposal, topic};
use jeghatuf::shapes::*;
use jeghatuf::{
    Fencing, Fields, Image, PatternType, Prefixes, Record, Refusal, calls, history, kafka, records,
    with_offset,
};

/// What Validate refuses a record by, after some others.
fn verdict(before: &[Fields], record: impl Into<Fields>) -> Refusal {
    let mut image = Image::open(4_096).unwrap();
    for (fields, offset) in before.iter().zip(0..) {
        image.apply(offset, fields.record().unwrap()).unwrap();
    }
    let record = record.into().record().unwrap();
    image.validate(record).unwrap_err()
}

/// What Apply refuses the last of some records by, at an offset.
fn applied(capacity: usize, run: &[Fields], last: i64) -> Refusal {
    let mut image = Image::open(capacity).unwrap();
    let (record, before) = run.split_last().unwrap();
    for (fields, offset) in before.iter().zip(0..) {
        image.apply(offset, fields.record().unwrap()).unwrap();
    }
    image.apply(last, record.record().unwrap()).unwrap_err()
}

fn level() -> Fields {
    let name = "a".into();
    FeatureLevel { name, level: 1 }.into()
}

fn advance(count: i64) -> Fields {
    PartitionOffsetAdvance {
        topic: "a".into(),
        partition: 0,
        count,
    }
    .into()
}

fn ids(next_producer_id: i64) -> ProducerIds {
    ProducerIds {
        broker_id: 1,
        broker_epoch: 2,
        next_producer_id,
    }
}

fn leaving(node_id: u64) -> UnregisterBroker {
    UnregisterBroker {
        node_id,
        broker_epoch: 2,
    }
}

#[test]
fn every_refusal_has_its_name() {
    let stored = topic("plan-0042", 1);
    let change = BrokerRegistrationChange {
        node_id: 1,
        broker_epoch: 2,
        fenced: Fencing::None,
        in_controlled_shutdown: false,
        log_dirs: vec![],
        cordoned_log_dirs: None,
    };
    let consumed = BreakGlassProposal {
        consumed_at_ms: 1,
        ..proposal(0)
    };
    let withdrawn = BreakGlassProposal {
        withdrawn: true,
        ..proposal(0)
    };
    let twice = Partition {
        replicas: vec![1, 1],
        ..partition("a", 0, 2)
    };
    let image = Image::open(144).unwrap();
    let prefixes = Prefixes::new(["plan-"]).unwrap();
    let run = Vec::from(level().record().unwrap());
    let refused = [
        Image::open(143).unwrap_err(),
        Record::read(&[]).unwrap_err(),
        Record::read(&[0, 0, 0]).unwrap_err(),
        Record::read(&[11, 0, 0]).unwrap_err(),
        image.topic(&"a".repeat(256)).unwrap_err(),
        verdict(&[stored.into()], topic("plan-0042", 2)),
        verdict(&[], DeleteTopic { name: "a".into() }),
        verdict(&[], change),
        verdict(&[], leaving(1)),
        verdict(&[], UnregisterController { node_id: 1 }),
        verdict(&[], ids(0)),
        verdict(&[], ids(1)),
        verdict(&[], freeze("", PatternType::Literal)),
        verdict(&[consumed.into()], proposal(0)),
        verdict(&[withdrawn.into()], proposal(0)),
        verdict(&[proposal(1).into()], proposal(0)),
        applied(4_096, &[advance(i64::MAX), advance(1)], 1),
        applied(155, &[level()], 0),
        Refusal::from_number(calls::snapshot(image.as_bytes(), &mut []).unwrap_err()),
        twice.record().unwrap_err(),
        applied(4_096, &[level(), level()], 0),
        Image::restore(144, &[]).unwrap_err().refusal,
        with_offset(&[], -2).unwrap_err().refusal,
        verdict(&[], topic("Smith/2", 1)),
        image.view(&prefixes).topic("room-7").unwrap_err(),
        history(&run, 5).unwrap_err(),
        kafka::write(leaving(1 << 31).record().unwrap()).unwrap_err(),
    ];
    assert_eq!(refused, Refusal::ALL);
    for (refusal, number) in refused.into_iter().zip(1..) {
        assert_eq!(refusal.number(), number);
        assert_eq!(Refusal::from_number(number), refusal);
        assert!(!refusal.to_string().is_empty());
    }
}

#[test]
fn lists_of_names_are_held_to_their_rules() {
    let image = Image::open(144).unwrap();
    assert_eq!(image.freezes(["a"; 256]).unwrap().indexes.len(), 256);
    assert_eq!(image.freezes(["a"; 257]), Err(Refusal::OverALimit));
    assert_eq!(image.freezes(["b", "a"]), Err(Refusal::Wrong));
    assert_eq!(
        image.freezes(["a".repeat(70_000)]),
        Err(Refusal::OverALimit)
    );
    assert_eq!(image.freezes([""; 0]).unwrap().read, 0);
    assert_eq!(
        Prefixes::new(["a".repeat(70_000)]),
        Err(Refusal::OverALimit)
    );
    assert!(Prefixes::new([""; 8]).is_ok());
    assert!(Prefixes::new([""; 0]).is_ok());
}

#[test]
fn a_place_comes_with_a_refusal_in_a_run() {
    let level = level().record().unwrap();
    let run = [level.as_bytes(), &[0, 0, 0]].concat();
    for stopped in [
        with_offset(&run, 0).unwrap_err(),
        jeghatuf::log_freeze(&run, "a").unwrap_err(),
        records(&run).find_map(Result::err).unwrap(),
    ] {
        assert_eq!(stopped.refusal, Refusal::UnknownKind);
        assert_eq!(stopped.place, Some(12));
        assert_eq!(
            stopped.to_string(),
            format!("byte 12: {}", Refusal::UnknownKind)
        );
    }
    let stopped = with_offset(&run, -2).unwrap_err();
    assert_eq!(
        (stopped.refusal, stopped.place),
        (Refusal::OffsetTooLow, None)
    );
}
