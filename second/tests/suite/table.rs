//! The check of a table: each refusal on both sides of its border, and the smallest first.

use second::state::{fresh, State};
use second::table::{check, Entry, Table};

use crate::support::table;

#[test]
fn number_of_guests() {
    assert_eq!(check(&table(16, &[])), 10);
    assert_eq!(check(&table(16, &[(1, 16)])), 0);
    assert_eq!(check(&table(16, &[(1, 16); 16])), 0);
    for guest_count in [17, 65_536, u64::MAX] {
        let many = Table {
            guest_count,
            ..table(16, &[(1, 16); 16])
        };
        assert_eq!(check(&many), 10);
    }
}

#[test]
fn frame() {
    for (frame, number) in [(0, 12), (1, 0), (1_000_000, 0), (1_000_001, 12)] {
        assert_eq!(check(&table(frame, &[(1, 1)])), number);
    }
    assert_eq!(check(&table(u64::MAX, &[(1, 1)])), 12);
}

#[test]
fn budget_and_period() {
    let cases = [
        ((1, 8), 0),
        ((8, 8), 0),
        ((4, 4), 0),
        ((0, 8), 13),
        ((5, 4), 13),
        ((0, 0), 13),
        ((1, 0), 13),
        ((1, 3), 13),
        ((1, 16), 13),
        ((u64::MAX, u64::MAX), 13),
        ((1, u64::MAX), 13),
    ];
    for (guest, number) in cases {
        assert_eq!(check(&table(8, &[guest])), number, "{guest:?}");
        assert_eq!(check(&table(8, &[(1, 8), guest])) == 13, number == 13);
    }
}

#[test]
fn unused_place_is_not_zero() {
    for place in 1..16 {
        for entry in [(1, 0), (0, 1), (1, 8)] {
            let mut bad = table(8, &[(1, 8)]);
            bad.entries[place] = Entry {
                budget: entry.0,
                period: entry.1,
            };
            assert_eq!(check(&bad), 13);
            assert_eq!(fresh(&bad).refusal, 13);
        }
    }
}

#[test]
fn shares() {
    assert_eq!(check(&table(12, &[(1, 2), (1, 3), (2, 12)])), 0);
    assert_eq!(check(&table(12, &[(1, 2), (1, 3), (3, 12)])), 14);
    assert_eq!(check(&table(1, &[(1, 1), (1, 1)])), 14);
    let most = 1_000_000;
    assert_eq!(check(&table(most, &[(most, most); 16])), 14);
    assert_eq!(
        check(&table(most, &[(1, 2), (499_999, most), (1, most)])),
        0
    );
    assert_eq!(
        check(&table(most, &[(1, 2), (500_000, most), (1, most)])),
        14
    );
}

#[test]
fn smallest_number_first() {
    let none = Table {
        frame: 0,
        guest_count: 0,
        entries: [Entry {
            budget: 2,
            period: 1,
        }; 16],
    };
    assert_eq!(check(&none), 10);
    let frame_too = Table {
        guest_count: 2,
        ..none
    };
    assert_eq!(check(&frame_too), 12);
    let guest_too = Table {
        frame: 1,
        ..frame_too
    };
    assert_eq!(check(&guest_too), 13);
    assert_eq!(check(&table(1, &[(1, 1), (1, 1), (0, 1)])), 13);
}

#[test]
fn fresh_state() {
    let good = table(8, &[(3, 4), (2, 8)]);
    let state = fresh(&good).value;
    assert_eq!(fresh(&good).refusal, 0);
    assert_eq!((state.table, state.now, state.spare_count), (good, 0, 0));
    let without_table = State {
        table: Table::default(),
        ..state
    };
    assert_eq!(without_table, State::default());
    for (number, bad) in [
        (10, table(8, &[])),
        (12, table(0, &[(1, 1)])),
        (13, table(8, &[(1, 3)])),
        (14, table(8, &[(3, 4), (3, 8)])),
    ] {
        assert_eq!(fresh(&bad).refusal, number);
        assert_eq!(fresh(&bad).value, State::default());
    }
}
