//! What is asked of both sides.

use std::fmt;

use second::state::State;
use second::table::Table;

use super::wire::{state_numbers, table_numbers, Name, Teller};

/// The longest that the program takes; the archive takes any.
const LONGEST_IMAGE: usize = 65_600;
pub const LONGEST_BUFFER: usize = 200;

pub enum Request {
    State {
        state: Box<State>,
        guest: u64,
        ticks: u64,
    },
    Table {
        table: Box<Table>,
        length: usize,
        fill: u8,
    },
    Image(Box<[u8]>),
}

impl Request {
    pub fn state(state: State, guest: u64, ticks: u64) -> Request {
        let state = Box::new(state);
        Request::State {
            state,
            guest,
            ticks,
        }
    }

    pub fn table(table: Table, length: usize, fill: u8) -> Request {
        let table = Box::new(table);
        Request::Table {
            table,
            length,
            fill,
        }
    }

    pub fn fits_program(&self) -> bool {
        match self {
            Request::State { .. } => true,
            Request::Table { length, .. } => *length <= LONGEST_BUFFER,
            Request::Image(image) => image.len() <= LONGEST_IMAGE,
        }
    }

    /// As crates/test_answers/src/wire.rt reads it.
    pub fn write(&self, input: &mut Vec<u8>) {
        let mut numbers = |values: &[u64]| {
            values
                .iter()
                .for_each(|value| input.extend(value.to_le_bytes()))
        };
        match self {
            Request::State {
                state,
                guest,
                ticks,
            } => {
                numbers(&[1]);
                numbers(&state_numbers(state));
                numbers(&[*guest, *ticks]);
            }
            Request::Table {
                table,
                length,
                fill,
            } => {
                numbers(&[2]);
                numbers(&table_numbers(table));
                numbers(&[*length as u64, (*fill).into()]);
            }
            Request::Image(image) => {
                numbers(&[3, image.len() as u64]);
                input.extend(image);
            }
        }
    }
}

/// For a reader: every number that is not 0.
impl fmt::Display for Request {
    fn fmt(&self, out: &mut fmt::Formatter) -> fmt::Result {
        let mut told: Vec<(Name, u64)> = Vec::new();
        let (call, sink) = ("", &mut told);
        let mut teller = Teller { call, sink };
        match self {
            Request::State {
                state,
                guest,
                ticks,
            } => {
                write!(out, "guest {guest}, {ticks} ticks")?;
                teller.state(state);
            }
            Request::Table {
                table,
                length,
                fill,
            } => {
                write!(out, "{length} bytes of {fill}")?;
                teller.table(table);
            }
            Request::Image(image) => {
                write!(out, "an image of {} bytes: {image:02x?}", image.len())?
            }
        }
        let mut numbers = told.iter().filter(|(_, value)| *value != 0);
        numbers.try_for_each(|(name, value)| write!(out, ", {name} = {value}"))
    }
}
