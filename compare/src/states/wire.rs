//! Requests and answers as crates/test_answers/src/wire.rt has them: every number is told with its name, to a list of bytes that is compared or to a
//! list that a reader understands.

use std::fmt;

use second::state::State;
use second::table::Table;

/// What a number of an answer is: the call's name, the part, its place where the part has several, and the field.
#[derive(Clone, Copy)]
pub struct Name {
    pub call: &'static str,
    pub part: &'static str,
    pub place: Option<usize>,
    pub field: &'static str,
}

impl fmt::Display for Name {
    fn fmt(&self, out: &mut fmt::Formatter) -> fmt::Result {
        let place = self.place.map_or(String::new(), |place| place.to_string());
        let words = [self.call, self.part, &place, self.field];
        let told: Vec<&str> = words.into_iter().filter(|word| !word.is_empty()).collect();
        write!(out, "{}", told.join(" "))
    }
}

/// Takes the numbers of an answer in their order, and the bytes of its buffer or part.
pub trait Sink {
    fn number(&mut self, name: Name, value: u64);
    fn bytes(&mut self, bytes: &[u8]);
}

impl Sink for Vec<u8> {
    fn number(&mut self, _: Name, value: u64) {
        self.extend(value.to_le_bytes());
    }

    fn bytes(&mut self, bytes: &[u8]) {
        self.extend(bytes);
    }
}

impl Sink for Vec<(Name, u64)> {
    fn number(&mut self, name: Name, value: u64) {
        self.push((name, value));
    }

    fn bytes(&mut self, bytes: &[u8]) {
        let name = |place| Name {
            call: "bytes",
            part: "byte",
            place: Some(place),
            field: "",
        };
        self.extend(
            bytes
                .iter()
                .enumerate()
                .map(|(place, &byte)| (name(place), byte.into())),
        );
    }
}

/// The numbers of one call, told to a sink.
pub struct Teller<'a, Told: Sink> {
    pub call: &'static str,
    pub sink: &'a mut Told,
}

impl<Told: Sink> Teller<'_, Told> {
    pub fn number(&mut self, field: &'static str, value: u64) {
        self.named("", None, field, value);
    }

    fn named(&mut self, part: &'static str, place: Option<usize>, field: &'static str, value: u64) {
        let call = self.call;
        let name = Name {
            call,
            part,
            place,
            field,
        };
        self.sink.number(name, value);
    }

    fn fields(&mut self, part: &'static str, place: usize, fields: &[(&'static str, u64)]) {
        for &(field, value) in fields {
            self.named(part, Some(place), field, value);
        }
    }

    pub fn table(&mut self, table: &Table) {
        self.named("table", None, "frame", table.frame);
        self.named("table", None, "count", table.guest_count);
        for (place, entry) in table.entries.iter().enumerate() {
            self.fields(
                "entry",
                place,
                &[("budget", entry.budget), ("period", entry.period)],
            );
        }
    }

    pub fn state(&mut self, state: &State) {
        self.table(&state.table);
        for (place, guest) in state.guests.iter().enumerate() {
            let numbers = [
                ("jobs", guest.jobs),
                ("current", guest.current_budget),
                ("deadline", guest.deadline),
                ("own", guest.own_ticks),
                ("borrowed", guest.spare_ticks),
            ];
            self.fields("guest", place, &numbers);
        }
        for (place, spare) in state.spares.iter().enumerate() {
            let numbers = [
                ("deadline", spare.deadline),
                ("owner", spare.owner),
                ("capacity", spare.capacity),
            ];
            self.fields("spare", place, &numbers);
        }
        self.named("state", None, "now", state.now);
        self.named("state", None, "listed", state.spare_count);
        self.named("state", None, "burned", state.burning_ticks);
        self.named("state", None, "empty", state.nothing_ticks);
    }

    pub fn line(&mut self, place: usize, line: &Line) {
        let numbers = [
            ("first", line.first),
            ("end", line.end),
            ("kind", line.used.kind),
            ("guest", line.used.guest),
            ("owner", line.used.owner),
        ];
        self.fields("line", place, &numbers);
    }

    pub fn next(&mut self, next: &Next) {
        self.number("kind", next.used.kind);
        self.number("guest", next.used.guest);
        self.number("owner", next.used.owner);
        self.number("deadline", next.deadline);
        self.number("span", next.span);
    }
}

/// What a tick uses: of kind 0 nothing, of 1 a guest's own budget, of 2 a spare, of 3 a spare that burns.
#[derive(Clone, Copy, Default)]
pub struct Used {
    pub kind: u64,
    pub guest: u64,
    pub owner: u64,
}

/// A portion of a walk.
#[derive(Clone, Copy, Default)]
pub struct Line {
    pub first: u64,
    pub end: u64,
    pub used: Used,
}

/// What the next tick would do.
#[derive(Clone, Copy, Default)]
pub struct Next {
    pub used: Used,
    pub deadline: u64,
    pub span: u64,
}

pub const TABLE_NUMBERS: usize = 34;
pub const STATE_NUMBERS: usize = 310;
/// Where the parts of a state begin, counted in numbers.
pub const ENTRIES: usize = 2;
pub const GUESTS: usize = 34;
pub const SPARES: usize = 114;
pub const NOW: usize = 306;
pub const SPARE_COUNT: usize = 307;
pub const BURNED: usize = 308;
pub const IDLE: usize = 309;

/// The numbers of a state in the order of the wire.
pub fn state_numbers(state: &State) -> Vec<u64> {
    let mut told: Vec<(Name, u64)> = Vec::with_capacity(STATE_NUMBERS);
    let sink = &mut told;
    Teller { call: "", sink }.state(state);
    told.into_iter().map(|(_, value)| value).collect()
}

pub fn table_numbers(table: &Table) -> Vec<u64> {
    let mut told: Vec<(Name, u64)> = Vec::with_capacity(TABLE_NUMBERS);
    let sink = &mut told;
    Teller { call: "", sink }.table(table);
    told.into_iter().map(|(_, value)| value).collect()
}

pub fn table_of(numbers: &[u64]) -> Table {
    let mut table = Table {
        frame: numbers[0],
        guest_count: numbers[1],
        ..Table::default()
    };
    for (place, entry) in table.entries.iter_mut().enumerate() {
        entry.budget = numbers[ENTRIES + 2 * place];
        entry.period = numbers[ENTRIES + 2 * place + 1];
    }
    table
}

pub fn state_of(numbers: &[u64]) -> State {
    let mut state = State {
        table: table_of(numbers),
        now: numbers[NOW],
        spare_count: numbers[SPARE_COUNT],
        burning_ticks: numbers[BURNED],
        nothing_ticks: numbers[IDLE],
        ..State::default()
    };
    for (guest, five) in state.guests.iter_mut().zip(numbers[GUESTS..].chunks(5)) {
        guest.jobs = five[0];
        guest.current_budget = five[1];
        guest.deadline = five[2];
        guest.own_ticks = five[3];
        guest.spare_ticks = five[4];
    }
    for (spare, three) in state.spares.iter_mut().zip(numbers[SPARES..].chunks(3)) {
        spare.deadline = three[0];
        spare.owner = three[1];
        spare.capacity = three[2];
    }
    state
}
