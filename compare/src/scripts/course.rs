//! A script in the making: each command is written down and carried out on a state, so that the next one can be chosen by it.

use second::state::{fresh, State, END_OF_TIME};
use second::steps;
use second::table;

use crate::draft::Entry;

pub struct Course {
    text: String,
    state: State,
    ticks_left: u64,
}

impl Course {
    /// Its advances have at most so many ticks together, apart from those in which there is nothing to do.
    pub fn new(frame: u32, guests: &[Entry], ticks: u64) -> Course {
        let mut text = format!("F {frame}\n");
        for guest in guests {
            text += &format!("G {} {}\n", guest.budget, guest.period);
        }
        Course {
            text,
            state: fresh(&table_of(frame, guests)).value,
            ticks_left: ticks,
        }
    }

    pub fn state(&self) -> &State {
        &self.state
    }

    pub fn guest_count(&self) -> u64 {
        self.state.table.guest_count
    }

    pub fn arrive(&mut self, guest: u64) {
        self.text += &format!("A {guest}\n");
        steps::arrive(&mut self.state, guest);
    }

    pub fn done(&mut self, guest: u64) {
        self.text += &format!("D {guest}\n");
        steps::done(&mut self.state, guest);
    }

    pub fn advance(&mut self, ticks: u64) {
        let nothing_to_do = steps::ask(&self.state).value == steps::Ask::Nothing;
        let ticks = if nothing_to_do {
            ticks
        } else {
            ticks.min(self.ticks_left)
        };
        self.text += &format!("R {ticks}\n");
        let refusal = steps::advance(&mut self.state, ticks);
        if refusal == 0 && !nothing_to_do {
            self.ticks_left -= ticks;
        }
    }

    /// An advance that is refused at any tick, and so takes no time.
    pub fn advance_past_the_end(&mut self, beyond: u64) {
        self.text += &format!("R {}\n", END_OF_TIME + beyond);
    }

    pub fn into_script(self) -> Vec<u8> {
        self.text.into_bytes()
    }
}

fn table_of(frame: u32, guests: &[Entry]) -> table::Table {
    let mut table = table::Table {
        frame: frame.into(),
        guest_count: guests.len() as u64,
        ..table::Table::default()
    };
    for (place, guest) in table.entries.iter_mut().zip(guests) {
        *place = table::Entry {
            budget: guest.budget.into(),
            period: guest.period.into(),
        };
    }
    table
}
