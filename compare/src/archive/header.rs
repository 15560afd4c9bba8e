//! include/lomvadric.h in Rust: what the functions take and give, and how the second implementation's states and tables are laid out for them.

use second::state;
use second::table;

use crate::states::answers::LINE_PLACES;
use crate::states::wire::{STATE_NUMBERS, TABLE_NUMBERS};

const GUEST_PLACES: usize = 16;
const SPARE_PLACES: usize = 64;

#[repr(C)]
#[derive(Clone, Copy, Default, PartialEq, Eq)]
pub struct Entry {
    budget: u64,
    period: u64,
}

#[repr(C)]
#[derive(Clone, Copy, PartialEq, Eq)]
pub struct Table {
    frame: u64,
    count: usize,
    entries: [Entry; GUEST_PLACES],
}

#[repr(C)]
#[derive(Clone, Copy, Default, PartialEq, Eq)]
pub struct Guest {
    jobs: u64,
    current: u64,
    deadline: u64,
    own: u64,
    borrowed: u64,
}

#[repr(C)]
#[derive(Clone, Copy, Default, PartialEq, Eq)]
pub struct Spare {
    deadline: u64,
    owner: usize,
    capacity: u64,
}

#[repr(C)]
#[derive(Clone, Copy, PartialEq, Eq)]
pub struct State {
    table: Table,
    now: u64,
    guests: [Guest; GUEST_PLACES],
    listed: usize,
    spares: [Spare; SPARE_PLACES],
    burned: u64,
    empty: u64,
}

// Nothing lies between the numbers: where all of them are the same, all bytes are.
const _: () = assert!(size_of::<Table>() == TABLE_NUMBERS * size_of::<u64>());
const _: () = assert!(size_of::<State>() == STATE_NUMBERS * size_of::<u64>());

#[repr(C)]
pub struct Use {
    pub kind: u32,
    pub guest: usize,
    pub owner: usize,
}

#[repr(C)]
pub struct Next {
    pub refusal: u32,
    pub used: Use,
    pub deadline: u64,
    pub span: u64,
}

#[repr(C)]
pub struct Actives {
    pub refusal: u32,
    pub mask: u32,
    pub actives: u32,
}

#[repr(C)]
pub struct Distance {
    pub refusal: u32,
    pub ticks: i64,
}

#[repr(C)]
pub struct Line {
    pub first: u64,
    pub end: u64,
    pub used: Use,
}

#[repr(C)]
pub struct Walked {
    pub refusal: u32,
    pub left: u64,
    pub shown: usize,
    pub lines: [Line; LINE_PLACES],
}

#[repr(C)]
pub struct Part {
    pub refusal: u32,
    pub offset: usize,
    pub length: usize,
}

extern "C" {
    pub fn lomvadric_fresh(state: *mut State, table: *const Table) -> u32;
    pub fn lomvadric_arrive(state: *mut State, guest: usize) -> u32;
    pub fn lomvadric_done(state: *mut State, guest: usize) -> u32;
    pub fn lomvadric_advance(state: *mut State, ticks: u64) -> u32;
    pub fn lomvadric_walk(state: *mut State, ticks: u64) -> Walked;
    pub fn lomvadric_ask(state: *const State) -> Next;
    pub fn lomvadric_active(state: *const State) -> Actives;
    pub fn lomvadric_margin(state: *const State, guest: usize) -> Distance;
    pub fn lomvadric_check_image(image: *const u8, length: usize) -> u32;
    pub fn lomvadric_read_image(table: *mut Table, image: *const u8, length: usize) -> u32;
    pub fn lomvadric_entries(image: *const u8, length: usize) -> Part;
    pub fn lomvadric_write_image(table: *const Table, buffer: *mut u8, length: usize) -> u32;
}

impl From<&table::Table> for Table {
    fn from(table: &table::Table) -> Table {
        Table {
            frame: table.frame,
            count: table.guest_count as usize,
            entries: table.entries.map(|entry| Entry {
                budget: entry.budget,
                period: entry.period,
            }),
        }
    }
}

impl From<&Table> for table::Table {
    fn from(table: &Table) -> table::Table {
        table::Table {
            frame: table.frame,
            guest_count: table.count as u64,
            entries: table.entries.map(|entry| table::Entry {
                budget: entry.budget,
                period: entry.period,
            }),
        }
    }
}

impl From<&state::State> for State {
    fn from(state: &state::State) -> State {
        State {
            table: Table::from(&state.table),
            now: state.now,
            guests: state.guests.map(|guest| Guest {
                jobs: guest.jobs,
                current: guest.current_budget,
                deadline: guest.deadline,
                own: guest.own_ticks,
                borrowed: guest.spare_ticks,
            }),
            listed: state.spare_count as usize,
            spares: state.spares.map(|spare| Spare {
                deadline: spare.deadline,
                owner: spare.owner as usize,
                capacity: spare.capacity,
            }),
            burned: state.burning_ticks,
            empty: state.nothing_ticks,
        }
    }
}

impl From<&State> for state::State {
    fn from(state: &State) -> state::State {
        state::State {
            table: table::Table::from(&state.table),
            now: state.now,
            guests: state.guests.map(|guest| state::Guest {
                jobs: guest.jobs,
                current_budget: guest.current,
                deadline: guest.deadline,
                own_ticks: guest.own,
                spare_ticks: guest.borrowed,
            }),
            spare_count: state.listed as u64,
            spares: state.spares.map(|spare| state::Spare {
                deadline: spare.deadline,
                owner: spare.owner as u64,
                capacity: spare.capacity,
            }),
            burning_ticks: state.burned,
            nothing_ticks: state.empty,
        }
    }
}
