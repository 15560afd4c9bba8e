//! The document's listing, as the program's bytes and as the library's portions.

use second::program::listing;
use second::steps::{advance, arrive, done, portions, Ask, Portion, Source};

use crate::support::{fresh_state, guest, used_spares};

#[test]
fn listing_byte_by_byte() {
    let input = b"F 8\nG 3 4\nG 2 8\nA 0\nA 1\nR 2\nD 0\nR 2\nA 0\nR 4\nD 1\nD 0\nR 5\n";
    let output =
        b"0 2 0 0o\n2 3 1 0s\n3 4 1 1o\n4 7 0 0o\n7 8 1 1o\n8 11 - 0s\n11 13 - -\nend 13\n";
    assert_eq!(listing(input), output);
}

fn own(first: u64, end: u64, guest: u64, deadline: u64, span: u64) -> Portion {
    let answer = Ask::Run {
        guest,
        source: Source::Own,
        deadline,
        span,
    };
    Portion { first, end, answer }
}

fn on_spare(first: u64, end: u64, guest: u64, owner: u64, deadline: u64, span: u64) -> Portion {
    let answer = Ask::Run {
        guest,
        source: Source::Spare { owner },
        deadline,
        span,
    };
    Portion { first, end, answer }
}

fn burn(first: u64, end: u64, owner: u64, deadline: u64, span: u64) -> Portion {
    let answer = Ask::Burn {
        owner,
        deadline,
        span,
    };
    Portion { first, end, answer }
}

fn nothing(first: u64, end: u64) -> Portion {
    let answer = Ask::Nothing;
    Portion { first, end, answer }
}

#[test]
fn listing_as_portions() {
    let mut state = fresh_state(8, &[(3, 4), (2, 8)]);
    let mut seen = Vec::new();
    let mut run = |state: &mut _, ticks| {
        seen.extend(portions(state, ticks).value);
        assert_eq!(advance(state, ticks), 0);
    };
    assert_eq!((arrive(&mut state, 0), arrive(&mut state, 1)), (0, 0));
    run(&mut state, 2);
    assert_eq!(done(&mut state, 0), 0);
    run(&mut state, 2);
    assert_eq!(arrive(&mut state, 0), 0);
    run(&mut state, 4);
    assert_eq!((done(&mut state, 1), done(&mut state, 0)), (0, 0));
    run(&mut state, 5);
    let expected = [
        own(0, 2, 0, 4, 3),
        on_spare(2, 3, 1, 0, 4, 1),
        own(3, 4, 1, 8, 2),
        own(4, 7, 0, 8, 3),
        own(7, 8, 1, 8, 1),
        burn(8, 11, 0, 12, 3),
        nothing(11, 13),
    ];
    assert_eq!(seen, expected);
}

#[test]
fn state_after_the_listing() {
    let mut state = fresh_state(8, &[(3, 4), (2, 8)]);
    assert_eq!((arrive(&mut state, 0), arrive(&mut state, 1)), (0, 0));
    assert_eq!((advance(&mut state, 2), done(&mut state, 0)), (0, 0));
    assert_eq!((advance(&mut state, 2), arrive(&mut state, 0)), (0, 0));
    assert_eq!((advance(&mut state, 4), done(&mut state, 1)), (0, 0));
    assert_eq!((done(&mut state, 0), advance(&mut state, 5)), (0, 0));
    assert_eq!(state.now, 13);
    assert_eq!(
        (guest(&state, 0), guest(&state, 1)),
        ((0, 0, 12), (0, 0, 8))
    );
    assert!(used_spares(&state).is_empty());
    let tallies = |place: usize| {
        (
            state.guests[place].own_ticks,
            state.guests[place].spare_ticks,
        )
    };
    assert_eq!((tallies(0), tallies(1)), ((5, 0), (2, 1)));
    assert_eq!((state.burning_ticks, state.nothing_ticks), (3, 2));
}
