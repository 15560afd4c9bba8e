//! The command-line program. No argument: standard input in, listing out; `borders`: the border pairs.

use std::env::args_os;
use std::io::{stdin, stdout, BufWriter, Result, Write};
use std::process::{exit, ExitCode};

use second::borders::report;
use second::program::{read_input, run};

fn main() -> ExitCode {
    let mut arguments = args_os().skip(1);
    match (arguments.next(), arguments.next()) {
        (None, None) => print_listing(),
        (Some(word), None) if word == "borders" => print_borders(),
        _ => {
            eprintln!("usage: second [borders]");
            return ExitCode::from(2);
        }
    }
    ExitCode::SUCCESS
}

fn print_listing() {
    let input = read_input(stdin().lock());
    let mut output = BufWriter::new(stdout().lock());
    run(&input, &mut |line| {
        stop_on_failure(output.write_all(line));
    });
    stop_on_failure(output.flush());
}

fn print_borders() {
    stop_on_failure(stdout().write_all(report().as_bytes()));
}

/// Without an output there is nothing left to do, and an advance may have very many ticks to go.
fn stop_on_failure(written: Result<()>) {
    if written.is_err() {
        exit(1);
    }
}
