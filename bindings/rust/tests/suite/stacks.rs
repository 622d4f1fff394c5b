//! Every call on a thread with the stack that is named for it, on a full image.

use std::thread;

use crate::samples::{one_of_each, partition, topic};
use jeghatuf::{
    MOST_CAPACITY, STACK_APPLY, STACK_COMPARE, STACK_OTHER, STACK_RECORD, calls, with_stack,
};

/// What a thread and the closure take for themselves.
const OWN: usize = 16 * 1024;

fn on(stack: usize, call: impl FnOnce() + Send) {
    thread::scope(|scope| {
        let builder = thread::Builder::new().stack_size(stack + OWN);
        let thread = builder.spawn_scoped(scope, call).unwrap();
        thread.join().unwrap();
    });
}

/// The records of a full image.
fn full() -> Vec<Vec<u8>> {
    let mut all = one_of_each();
    all.retain(|fields| fields.kind().number() < 26);
    all.extend((0..60).map(|number| partition("plan-0042", number, 30).into()));
    all.extend((0..200).map(|number| topic(&format!("plan-{number}"), number as u8).into()));
    all.iter()
        .map(|fields| fields.record().unwrap().into())
        .collect()
}

#[test]
fn a_call_needs_no_more_stack_than_is_named() {
    let run = full();
    let mut image = vec![0; MOST_CAPACITY];
    on(STACK_RECORD, || assert_eq!(calls::open(&mut image), Ok(0)));
    let (mut valid, mut applied) = (0, 0);
    for (record, offset) in run.iter().zip(0..) {
        on(STACK_RECORD, || {
            assert_eq!(calls::read(record), Ok(record.len()))
        });
        on(STACK_RECORD, || {
            let found = (0..=u8::MAX).filter(|tag| calls::field(record, 3, *tag, &mut []) == 1);
            assert!(found.count() > 0);
        });
        on(STACK_OTHER, || {
            valid += usize::from(calls::validate(&image, record).is_ok())
        });
        on(STACK_APPLY, || {
            applied += usize::from(calls::apply(&mut image, offset, record).is_ok())
        });
    }
    assert!(
        valid > 50 && applied > 100 && applied < run.len(),
        "{valid} valid, {applied} applied"
    );
    let run = run.concat();
    let (mut out, mut value) = (vec![0; 1 << 20], [0; 2]);
    on(STACK_RECORD, || {
        let answer = calls::write(11, &[1, 2], &[1, 2], &[b'a', 0, 1], &mut out);
        assert_eq!(answer, Ok(12));
    });
    let mut length = 0;
    on(STACK_OTHER, || {
        length = calls::snapshot(&image, &mut out).unwrap()
    });
    let snapshot = out[..length].to_vec();
    let mut restored = vec![0; MOST_CAPACITY];
    on(STACK_APPLY, || {
        assert_eq!(calls::restore(&mut restored, &snapshot, &mut value), Ok(0));
    });
    // record by record, by a run that is no snapshot
    let again = [&snapshot[..], &run].concat();
    on(STACK_APPLY, || {
        let answer = calls::restore(&mut restored, &again, &mut value);
        assert_eq!(answer, Err(18));
    });
    let mut second = vec![0; MOST_CAPACITY];
    on(STACK_COMPARE, || {
        let answer = calls::compare(&mut restored, &mut second, &run, &again, &mut value);
        assert_eq!(answer, Ok(1));
        let answer = calls::compare(&mut restored, &mut second, &run, &run, &mut value);
        assert_eq!(answer, Ok(0));
    });

    let (image, prefixes, name) = (
        &image[..],
        &[0, 5, b'p', b'l', b'a', b'n', b'-'],
        b"plan-0042",
    );
    let old = &snapshot[14..];
    let topic = topic("plan-0042", 1).record().unwrap();
    let kafka = [1, 12, 0, 2, b'a', 0, 1, 0];
    type Call<'a> = &'a (dyn Fn(&mut [u8], &mut [u64]) -> calls::Answer + Sync);
    let others: [Call<'_>; 23] = [
        &|_, _| Ok(calls::is_image(image) as usize),
        &|out, _| calls::topic(image, name, out),
        &|out, _| calls::topic_by_id(image, &[1; 16], out),
        &|out, _| calls::partition(image, name, 0, out),
        &|out, _| calls::broker(image, 1, out),
        &|out, _| calls::freeze(image, name, out),
        &|out, value| calls::freezes(image, prefixes, out, value),
        &|out, value| calls::log_freeze(&run, name, out, value),
        &|out, _| calls::view_snapshot(image, prefixes, out),
        &|out, _| calls::view_topic(image, prefixes, name, out),
        &|out, _| calls::view_partition(image, prefixes, name, 0, out),
        &|out, _| calls::view_freeze(image, prefixes, name, out),
        &|out, _| calls::downgrade(image, 0, out),
        &|out, value| calls::with_offset(old, 0, out, value),
        &|out, value| calls::without_offset(&snapshot, out, value),
        &|out, _| calls::history(topic.as_bytes(), 4, out),
        &|out, value| calls::kafka_read(&kafka, out, value),
        &|out, _| calls::kafka_write(topic.as_bytes(), out),
        &|_, value| calls::throttle(image, 1, 0, value),
        &|_, value| calls::features_epoch(image, value),
        &|_, value| calls::log_offset(image, value),
        &|_, _| calls::short_count(image),
        &|_, _| calls::validate(image, topic.as_bytes()).or(Ok(0)),
    ];
    for (number, call) in others.into_iter().enumerate() {
        let answer = &mut Err(0);
        let (out, value) = (&mut out, &mut value);
        on(STACK_OTHER, || *answer = call(out, value));
        assert!(answer.is_ok(), "call {number} says {answer:?}");
    }
}

/// From a thread that is too small for any call.
#[test]
fn with_stack_serves_a_small_thread() {
    let run = full().concat();
    on(0, || {
        let comparison = with_stack(|| jeghatuf::compare(MOST_CAPACITY, &run, &run));
        assert!(!comparison.unwrap().unwrap().parted);
    });
}
