//! Counts what the calls gave, which refusals held at once, and which points of soundness were broken alone; and holds every number to the
//! conditions as `rows` has them.

use std::collections::BTreeMap;

use super::answers::{Answers, Entries, StateAnswers};
use super::expected::Form;
use super::points::{self, broken, Point};
use super::request::Request;
use super::rows::{self, Rows};
use crate::faults::{faults_of, FIRST, LAST};
use second::state::State;

/// What none of the counts may be below.
const LEAST: u64 = 100;
/// What each call can give.
const GIVEN: [(&str, &[u32]); 13] = [
    ("arrive", &[0, 1, 2, 4, 5, 6]),
    ("done", &[0, 1, 2, 3]),
    ("advance", &[0, 1, 7]),
    ("walk", &[0, 1, 7]),
    ("ask", &[0, 1]),
    ("active", &[0, 1]),
    ("margin", &[0, 1, 2]),
    ("check", &[0, 10, 12, 13, 14]),
    ("fresh", &[0, 10, 12, 13, 14]),
    ("write_image", &[0, 10, 12, 13, 14, 15]),
    ("read_image", &[0, 8, 9, 10, 11, 12, 13, 14]),
    ("check_image", &[0, 8, 9, 10, 11, 12, 13, 14]),
    ("entries", &[0, 8, 9, 10, 11, 12, 13, 14]),
];
/// What can hold at once.
const PAIRS: [(&str, &[(u32, u32)]); 8] = [
    ("arrive", &[(1, 2), (1, 4), (1, 5), (1, 6), (5, 6)]),
    ("done", &[(1, 2), (1, 3)]),
    ("advance", &[(1, 7)]),
    ("walk", &[(1, 7)]),
    ("margin", &[(1, 2)]),
    ("check", &TABLE_PAIRS),
    ("fresh", &TABLE_PAIRS),
    (
        "write_image",
        &[
            (10, 12),
            (10, 13),
            (10, 14),
            (10, 15),
            (12, 13),
            (12, 14),
            (12, 15),
            (13, 14),
            (13, 15),
            (14, 15),
        ],
    ),
];
const TABLE_PAIRS: [(u32, u32); 6] = [(10, 12), (10, 13), (10, 14), (12, 13), (12, 14), (13, 14)];

#[derive(Default)]
pub struct Counts {
    pub calls: u64,
    given: BTreeMap<(&'static str, u32), u64>,
    pairs: BTreeMap<(&'static str, u32, u32), u64>,
    alone: BTreeMap<Point, u64>,
}

/// C has no check of a table, and the program tells no number with the entries.
fn has_number(call: &str, form: Form) -> bool {
    match call {
        "check" => form == Form::Program,
        "entries" => form == Form::Archive,
        _ => true,
    }
}

impl Counts {
    /// Counts a request whose answers agreed; an error is a number that is not what the conditions say.
    pub fn take(&mut self, request: &Request, answers: &Answers) -> Result<(), String> {
        match (request, answers) {
            (
                Request::State {
                    state,
                    guest,
                    ticks,
                },
                Answers::State(given),
            ) => self.take_state(state, *guest, *ticks, given),
            (Request::Table { table, length, .. }, Answers::Table(given)) => {
                let rows = rows::of_table(table);
                if let Some(check) = given.check {
                    self.take_call("check", check, &rows)?;
                }
                self.take_call("fresh", given.fresh.refusal, &rows)?;
                self.take_call("write_image", given.write, &rows::of_write(table, *length))
            }
            (Request::Image(image), Answers::Image(given)) => {
                let faults = faults_of(image);
                let rows: Rows = (FIRST..=LAST)
                    .filter(|&number| faults.has(number))
                    .collect();
                self.take_call("read_image", given.read.refusal, &rows)?;
                self.take_call("check_image", given.check, &rows)?;
                match given.entries {
                    Entries::Part { refusal, .. } => self.take_call("entries", refusal, &rows),
                    Entries::Bytes(_) => {
                        self.calls += 1;
                        Ok(())
                    }
                }
            }
            _ => Err("the answer is to another kind of request".to_string()),
        }
    }

    fn take_state(
        &mut self,
        state: &State,
        guest: u64,
        ticks: u64,
        given: &StateAnswers,
    ) -> Result<(), String> {
        if let Some(point) = broken(state).alone() {
            *self.alone.entry(point).or_default() += 1;
        }
        self.take_call(
            "arrive",
            given.arrive.refusal,
            &rows::of_arrive(state, guest),
        )?;
        self.take_call("done", given.done.refusal, &rows::of_done(state, guest))?;
        self.take_call(
            "advance",
            given.advance.refusal,
            &rows::of_advance(state, ticks),
        )?;
        self.take_call(
            "walk",
            given.walk.stepped.refusal,
            &rows::of_advance(state, ticks),
        )?;
        self.take_call("ask", given.ask.refusal, &rows::of_ask(state))?;
        self.take_call("active", given.active.refusal, &rows::of_ask(state))?;
        self.take_call(
            "margin",
            given.margin.refusal,
            &rows::of_margin(state, guest),
        )
    }

    fn take_call(&mut self, call: &'static str, refusal: u32, rows: &Rows) -> Result<(), String> {
        self.calls += 1;
        *self.given.entry((call, refusal)).or_default() += 1;
        if let [smallest, others @ ..] = rows.as_slice() {
            for &other in others {
                *self.pairs.entry((call, *smallest, other)).or_default() += 1;
            }
        }
        let known = rows.first().copied().unwrap_or(0);
        if refusal != known {
            return Err(format!(
                "{call}: both give {refusal}, and the conditions say {known}"
            ));
        }
        Ok(())
    }

    pub fn add(&mut self, other: Counts) {
        self.calls += other.calls;
        other
            .given
            .into_iter()
            .for_each(|(key, count)| *self.given.entry(key).or_default() += count);
        other
            .pairs
            .into_iter()
            .for_each(|(key, count)| *self.pairs.entry(key).or_default() += count);
        other
            .alone
            .into_iter()
            .for_each(|(key, count)| *self.alone.entry(key).or_default() += count);
    }

    /// Every count that is asked for, with what it counts.
    fn wanted(&self, form: Form) -> Vec<(String, u64)> {
        let given = GIVEN
            .iter()
            .filter(|(call, _)| has_number(call, form))
            .flat_map(|(call, numbers)| numbers.iter().map(move |&number| (*call, number)));
        let given = given.map(|key| (format!("{} gives {}", key.0, key.1), self.given.get(&key)));
        let pairs = PAIRS
            .iter()
            .filter(|(call, _)| has_number(call, form))
            .flat_map(|(call, pairs)| pairs.iter().map(move |&(one, other)| (*call, one, other)));
        let pairs = pairs.map(|key| {
            (
                format!("{} gives {} where {} holds too", key.0, key.1, key.2),
                self.pairs.get(&key),
            )
        });
        let alone = points::ALL
            .iter()
            .map(|point| (format!("{point:?} broken alone"), self.alone.get(point)));
        given
            .chain(pairs)
            .chain(alone)
            .map(|(what, count)| (what, count.copied().unwrap_or(0)))
            .collect()
    }

    pub fn print(&self, form: Form) {
        match form {
            Form::Program => self.print_wanted(),
            Form::Archive => self.print_functions(),
        }
    }

    fn print_wanted(&self) {
        for (what, count) in self.wanted(Form::Program) {
            println!("{what}: {count}");
        }
    }

    /// A line for each function that C has: how often it was called, and how often it gave each number.
    fn print_functions(&self) {
        let functions = GIVEN
            .iter()
            .filter(|(call, _)| has_number(call, Form::Archive));
        for (call, numbers) in functions {
            let times = |number: &u32| self.given.get(&(*call, *number)).copied().unwrap_or(0);
            let told: Vec<String> = numbers
                .iter()
                .map(|number| format!("{number} {} times", times(number)))
                .collect();
            let calls: u64 = numbers.iter().map(times).sum();
            println!("lomvadric_{call}: {calls} calls; gave {}", told.join(", "));
        }
    }

    pub fn verdict(&self, form: Form) -> Result<(), String> {
        let wanted = self.wanted(form);
        let few = wanted.into_iter().find(|(_, count)| *count < LEAST);
        few.map_or(Ok(()), |(what, count)| {
            Err(format!("only {count} of these: {what}"))
        })
    }
}
