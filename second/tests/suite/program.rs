//! 'The program and its listing', sentence by sentence.

use crate::support::{prints, prints_bytes};

const TABLE: &str = "F 8\nG 3 4\nG 2 8\n";

/// Checks the output of lines that come after a good table of two guests.
fn after_table(lines: &str, output: &str) {
    prints(&format!("{TABLE}{lines}"), output);
}

#[test]
fn most_input() {
    // The table has 16 bytes and each further line 4.
    let full = format!("{TABLE}{}", "R 0\n".repeat(16_380));
    assert_eq!(full.len(), 65_536);
    prints(&full, "end 0\n");
    for more in ["\n", "R", "R 0\n", "?"] {
        prints(&format!("{full}{more}"), "! 16\n");
    }
}

#[test]
fn too_much_input_prints_nothing_else() {
    let lines = "A 0\nR 1\n".repeat(9_000);
    prints(&format!("{TABLE}{lines}"), "! 16\n");
    prints(&"\n".repeat(65_537), "! 16\n");
    prints_bytes(&[0xFF; 70_000], "! 16\n");
}

#[test]
fn form_of_a_number() {
    after_table("R 0\n", "end 0\n");
    after_table("R 10\n", "0 10 - -\nend 10\n");
    after_table(
        "R 1099511627776\n",
        "0 1099511627776 - -\nend 1099511627776\n",
    );
    after_table("R 9999999999999\n", "! 7\nend 0\n");
    for bad in [
        "R 00",
        "R 01",
        "R 10000000000000",
        "R 00000000000001",
        "R",
        "R ",
        "R -1",
        "R +1",
        "R 1a",
        "R a",
        "R 1.0",
        "R 0x1",
        "R 1_0",
        "R 1,0",
        "R \u{0661}",
    ] {
        after_table(&format!("{bad}\n"), "! 16\n");
    }
}

#[test]
fn one_space_before_each_number() {
    for bad in [
        "R  1", " R 1", "R 1 ", "R\t1", "R1", "R 1\r", "R 1\t", "R\u{a0}1",
    ] {
        after_table(&format!("{bad}\n"), "! 16\n");
    }
    for bad in ["G 1  8", "G  1 8", "G 1\t8", "G 1 8 "] {
        prints(&format!("F 8\nG 1 8\n{bad}\n"), "! 16\n");
    }
}

#[test]
fn wrong_letter() {
    for bad in [
        "X 1", "r 1", "a 0", "1 R", "", " ", "1", "RR 1", "! 1", "end 0", "\0 1",
    ] {
        after_table(&format!("{bad}\n"), "! 16\n");
    }
    for bad in ["f 8", "X 8", "8", "FF 8", ""] {
        prints(&format!("{bad}\nG 3 4\n"), "! 16\n");
    }
}

#[test]
fn wrong_order() {
    for first in ["G 3 4", "A 0", "D 0", "R 1"] {
        prints(&format!("{first}\nF 8\nG 3 4\n"), "! 16\n");
    }
    after_table("F 8\n", "! 16\n");
    after_table("A 0\nF 8\n", "! 16\n");
    after_table("R 0\nG 1 8\n", "! 16\n");
    after_table("A 9\nG 1 8\n", "! 2\n! 16\n");
}

#[test]
fn wrong_count() {
    for bad in ["F", "F 8 8", "F 8 8 8"] {
        prints(&format!("{bad}\nG 3 4\n"), "! 16\n");
    }
    for bad in [
        "A", "A 0 0", "D", "D 0 0", "R", "R 1 1", "G", "G 1", "G 1 8 8",
    ] {
        after_table(&format!("{bad}\n"), "! 16\n");
    }
}

#[test]
fn bytes_outside_text() {
    for byte in [0_u8, 0x0B, 0x0D, 0x80, 0xC3, 0xFF] {
        let mut input = TABLE.as_bytes().to_vec();
        input.extend([b'R', b' ', byte, b'\n']);
        prints_bytes(&input, "! 16\n");
        prints_bytes(&[byte], "! 16\n");
        prints_bytes(&[byte, b'\n'], "! 16\n");
    }
}

#[test]
fn missing_first_line() {
    prints("", "! 16\n");
    prints("\n", "! 16\n");
    prints("G 3 4\n", "! 16\n");
    prints("\nF 8\nG 3 4\n", "! 16\n");
}

#[test]
fn missing_last_line_feed() {
    prints("F 8", "! 16\n");
    prints("F 8\nG 3 4\nG 2 8", "! 16\n");
    after_table("A 0", "! 16\n");
    after_table("A 0\nR 1\nD 0", "0 1 0 0o\n! 16\n");
    after_table("R", "! 16\n");
}

#[test]
fn table_is_checked_at_the_first_line_that_is_no_guest() {
    for line in [
        "A 0\n", "F 8\n", "\n", "G 1\n", "G 01 8\n", "?\n", "G 1 8", "R 0", "",
    ] {
        prints(&format!("F 8\n{line}"), "! 10\n");
        prints(&format!("F 0\nG 1 1\n{line}"), "! 12\n");
        prints(&format!("F 8\nG 1 3\n{line}"), "! 13\n");
        prints(&format!("F 8\nG 3 4\nG 3 8\n{line}"), "! 14\n");
    }
}

#[test]
fn no_guest_line_or_too_many() {
    prints("F 8\n", "! 10\n");
    let sixteen = "G 1 16\n".repeat(16);
    prints(&format!("F 16\n{sixteen}"), "end 0\n");
    prints(&format!("F 16\n{sixteen}G 1 16\n"), "! 10\n");
    prints(&format!("F 16\n{sixteen}G 0 0\n"), "! 10\n");
    prints(&format!("F 0\n{sixteen}G 0 0\nA 0\n"), "! 10\n");
    prints(&format!("F 16\n{}", "G 1 16\n".repeat(5_000)), "! 10\n");
}

#[test]
fn number_too_large_for_its_field() {
    prints("F 9999999999999\nG 1 1\n", "! 12\n");
    prints("F 4294967304\nG 3 4\n", "! 12\n");
    prints("F 8\nG 4294967299 4\n", "! 13\n");
    prints("F 8\nG 3 4294967300\n", "! 13\n");
    prints("F 8\nG 9999999999999 9999999999999\n", "! 13\n");
    after_table(
        "A 4294967296\nA 65536\nD 9999999999999\n",
        "! 2\n! 2\n! 2\nend 0\n",
    );
}

#[test]
fn refusals_2_to_7_go_on() {
    after_table("A 2\nD 2\nR 1\n", "! 2\n! 2\n0 1 - -\nend 1\n");
    after_table("D 0\nR 1\n", "! 3\n0 1 - -\nend 1\n");
    let arrivals = "A 1\n".repeat(256);
    after_table(&format!("{arrivals}R 1\n"), "! 4\n0 1 1 1o\nend 1\n");
    let spares = "A 0\nD 0\n".repeat(64);
    prints(
        &format!("F 1\nG 1 1\n{spares}A 0\nR 1\nA 0\n"),
        "! 5\n0 1 - 0s\nend 1\n",
    );
    after_table("R 1099511627777\nR 1\n", "! 7\n0 1 - -\nend 1\n");
}

#[test]
fn refusal_6_goes_on() {
    let input = b"F 1000000\nG 1 1000000\nA 0\nR 17592186\nD 0\nA 0\nR 1\n";
    let mut lines = 0;
    let mut last_lines = Vec::new();
    second::program::run(input, &mut |line| {
        lines += 1;
        if lines > 17_592_185 {
            last_lines.extend_from_slice(line);
        }
    });
    // Each tick renews the budget of 1, so each of the 17,592,186 ticks is a portion.
    let expected = "17592185 17592186 0 0o\n! 6\n17592186 17592187 - -\nend 17592187\n";
    assert_eq!(String::from_utf8(last_lines).unwrap(), expected);
    assert_eq!(lines, 17_592_186 + 3);
}

#[test]
fn a_stopped_program_prints_no_end_line() {
    after_table("R 1\n?\nR 1\n", "0 1 - -\n! 16\n");
    prints("F 8\n?\n", "! 10\n");
}

#[test]
fn lines_before_a_malformed_one_are_carried_out() {
    after_table(
        "A 0\nR 1\nA 5\nR 1\nR 01\nR 1\n",
        "0 1 0 0o\n! 2\n1 2 0 0o\n! 16\n",
    );
}

#[test]
fn a_renewed_budget_is_a_new_portion() {
    prints(
        "F 4\nG 2 4\nA 0\nR 5\n",
        "0 2 0 0o\n2 4 0 0o\n4 5 0 0o\nend 5\n",
    );
    prints("F 1\nG 1 1\nA 0\nR 2\n", "0 1 0 0o\n1 2 0 0o\nend 2\n");
}

#[test]
fn each_next_spare_is_a_new_portion() {
    prints(
        "F 4\nG 2 4\nA 0\nD 0\nA 0\nD 0\nR 5\n",
        "0 2 - 0s\n2 4 - 0s\n4 5 - -\nend 5\n",
    );
    prints(
        "F 4\nG 2 4\nA 0\nD 0\nA 0\nD 0\nA 0\nR 7\n",
        "0 2 0 0s\n2 4 0 0s\n4 6 0 0o\n6 7 0 0o\nend 7\n",
    );
}

#[test]
fn a_spare_of_another_owner() {
    prints(
        "F 8\nG 1 4\nG 4 8\nA 1\nD 1\nA 0\nR 7\n",
        "0 1 0 0o\n1 5 0 1s\n5 6 0 0o\n6 7 0 0o\nend 7\n",
    );
}

#[test]
fn lines_of_two_commands_are_not_joined() {
    after_table("A 0\nR 1\nR 1\n", "0 1 0 0o\n1 2 0 0o\nend 2\n");
    after_table("R 3\nR 4\n", "0 3 - -\n3 7 - -\nend 7\n");
    after_table("A 0\nD 0\nR 1\nR 1\n", "0 1 - 0s\n1 2 - 0s\nend 2\n");
}

#[test]
fn an_advance_of_0_prints_no_line() {
    after_table("R 0\nA 0\nR 0\nR 1\nR 0\n", "0 1 0 0o\nend 1\n");
}

#[test]
fn the_last_line_is_end_and_the_tick() {
    after_table("", "end 0\n");
    after_table("R 12\n", "0 12 - -\nend 12\n");
    after_table("R 12\nA 7\n", "0 12 - -\n! 2\nend 12\n");
}

#[test]
fn two_digit_guest_numbers() {
    let sixteen = "G 1 16\n".repeat(16);
    prints(
        &format!("F 16\n{sixteen}A 15\nR 1\nD 15\nA 10\nD 10\nA 12\nR 3\n"),
        "0 1 15 15o\n1 2 12 10s\n2 3 12 12o\n3 4 12 12o\nend 4\n",
    );
}
