//! `shuffle`, and the order of claims.

use std::collections::HashSet;

use crate::support::{blocks, geometry, run, Stick};

/// What `shuffle` says.
struct Shuffled {
    drew: usize,
    /// The first places of the permutation.
    order: Vec<usize>,
    /// Whether there are more places than are shown.
    more: bool,
    /// The last line.
    start: String,
}

#[track_caller]
fn shuffled(stick: &Stick, key: usize) -> Shuffled {
    let ended = run(&mut stick.command("shuffle", key));
    let lines: Vec<&str> = ended.served().lines().collect();
    let [drew, order, start] = lines[..] else {
        panic!("three lines: {lines:?}");
    };
    let slices = stick.geometry.p;
    let drew = drew.strip_prefix("drew ").unwrap();
    let end = format!(" bytes of the tape for the order of {slices} slices");
    let drew = drew
        .strip_suffix(&end)
        .unwrap()
        .replace(',', "")
        .parse()
        .unwrap();
    let order = order.strip_prefix("claims go: ").unwrap();
    let (order, more) = order
        .strip_suffix(" ..")
        .map_or((order, false), |order| (order, true));
    Shuffled {
        drew,
        order: order
            .split(' ')
            .map(|place| place.parse().unwrap())
            .collect(),
        more,
        start: start.to_owned(),
    }
}

/// Tests that the last line tells the first place whose slice is free.
#[track_caller]
fn expect_start(shuffled: &Shuffled, owners: &[u8]) {
    let place = shuffled.order.iter().position(|&slice| owners[slice] == 0);
    match place {
        Some(place) => {
            let slice = shuffled.order[place];
            let line = format!("start place: {place}, the first whose slice is free: {slice}");
            assert_eq!(shuffled.start, line);
        }
        None if !shuffled.more => assert!(shuffled.start.contains("no slice is free")),
        None => {}
    }
}

#[test]
fn few_slices() {
    let stick = Stick::small(2);
    stick.put(1, 0, 0, &blocks(1, 12));
    stick.put(1, 1, 0, &blocks(2, 8));
    let mut starts = HashSet::new();
    for round in 0..12 {
        let key = round % 2;
        let shuffled = shuffled(&stick, key);
        let mut order = shuffled.order.clone();
        order.sort();
        assert_eq!(order, (0..8).collect::<Vec<_>>());
        assert!(!shuffled.more);
        // Two bytes for each place but one, and for each draw that is thrown away, which is rare.
        assert!((14..=20).contains(&shuffled.drew) && shuffled.drew.is_multiple_of(2));
        expect_start(&shuffled, &stick.opened(key).owners);
        starts.insert(shuffled.start);
    }
    assert!(starts.len() > 1);
}

#[test]
fn as_many_slices_as_are_shown() {
    for (slices, more) in [(31, false), (32, false), (33, true)] {
        let stick = Stick::new(geometry(1024, 1, slices), &[slices]);
        let shuffled = shuffled(&stick, 0);
        assert_eq!(
            (shuffled.order.len(), shuffled.more),
            (slices.min(32), more)
        );
    }
}

#[test]
fn each_session_has_another_order() {
    let stick = Stick::new(geometry(1024, 1, 300), &[300]);
    stick.put(0, 0, 0, &blocks(3, 200));
    let owners = stick.opened(0).owners;
    let mut orders = HashSet::new();
    for _ in 0..8 {
        let shuffled = shuffled(&stick, 0);
        let places: HashSet<&usize> = shuffled.order.iter().collect();
        assert_eq!(
            (shuffled.order.len(), places.len(), shuffled.more),
            (32, 32, true)
        );
        assert!(shuffled.order.iter().all(|&slice| slice < 300));
        assert!((598..=640).contains(&shuffled.drew) && shuffled.drew.is_multiple_of(2));
        expect_start(&shuffled, &owners);
        orders.insert(shuffled.order);
    }
    assert_eq!(orders.len(), 8);
}

#[test]
fn a_full_stick() {
    let stick = Stick::small(1);
    stick.put(0, 0, 0, &blocks(4, 32));
    let shuffled = shuffled(&stick, 0);
    assert_eq!(shuffled.order.len(), 8);
    assert!(
        shuffled.start.contains("no slice is free"),
        "{}",
        shuffled.start
    );
}

#[test]
fn one_slice() {
    let stick = Stick::new(geometry(1024, 1, 1), &[1]);
    let shuffled = shuffled(&stick, 0);
    assert_eq!(
        (shuffled.drew, shuffled.order, shuffled.more),
        (0, vec![0], false)
    );
    assert_eq!(
        shuffled.start,
        "start place: 0, the first whose slice is free: 0"
    );
}

/// Claims are spread over the stick: the first of a session takes now this slice, now that.
#[test]
fn claims_of_sessions() {
    let stick = Stick::new(geometry(1024, 1, 300), &[300]);
    for address in 0..12 {
        stick.put(0, 0, address, &blocks(5, 1));
    }
    let map = stick.opened(0).map(0);
    let taken: Vec<u32> = map.into_iter().flatten().collect();
    assert_eq!(taken.len(), 12);
    assert!(!taken.is_sorted() && !taken.iter().rev().is_sorted());
    // In one session too: 40 claims in the order of the slices come once in 40! sessions.
    stick.put(0, 0, 12, &blocks(6, 40));
    let map = stick.opened(0).map(0);
    let taken: Vec<u32> = map[12..].iter().copied().flatten().collect();
    assert_eq!(taken.len(), 40);
    assert!(!taken.is_sorted() && !taken.iter().rev().is_sorted());
}
