//! One script, and what is known of its output before any program has run.

pub struct Case {
    pub name: String,
    pub script: Vec<u8>,
    pub known: Known,
}

pub enum Known {
    Nothing,
    Whole(Vec<u8>),
    /// The last line is `end` and the tick.
    End,
    /// The last line is the refusal with this number.
    Stop(u32),
}

impl Known {
    pub fn holds_for(&self, output: &[u8]) -> bool {
        match self {
            Known::Nothing => true,
            Known::Whole(whole) => output == whole,
            Known::End => last_line(output).starts_with(b"end "),
            Known::Stop(number) => last_line(output) == format!("! {number}\n").as_bytes(),
        }
    }
}

fn last_line(output: &[u8]) -> &[u8] {
    let mut lines = output.split_inclusive(|&byte| byte == b'\n');
    lines.next_back().unwrap_or_default()
}
