// What trains heard, whether a print has it, and whether it came in order.

use crate::line::engine_of;
use crate::load::place_of;
use crate::train::{Ear, Train, VERSION};
use std::collections::HashSet;
use std::fmt::Write;

/// The lines that a print has to have: each message that was answered, and each answer.
#[derive(Default)]
pub struct Heard {
    pub lines: Vec<String>,
    /// How many answers were not the next that the centre said after the one before.
    pub out_of_order: u32,
    /// T_TRAIN of the last answer.
    last: u32,
}

impl Ear for Heard {
    fn answered(&mut self, train: &Train, said: &[u8], answer: &[u8]) {
        let stamp = stamp_of(answer);
        if answer[0] != VERSION && stamp != self.last + 1 {
            self.out_of_order += 1;
        }
        self.last = stamp;
        let centre = place_of(train.number);
        self.lines.push(format!("> train {centre} {}", digits(said)));
        self.lines.push(format!("{centre} -> {} {}", engine_of(train.number), digits(answer)));
    }
}

/// T_TRAIN: the 32 bits after NID_MESSAGE and L_MESSAGE.
fn stamp_of(message: &[u8]) -> u32 {
    let bits = message[2..7].iter().fold(0u64, |bits, byte| bits << 8 | u64::from(*byte));
    (bits >> 6) as u32
}

fn digits(bytes: &[u8]) -> String {
    bytes.iter().fold(String::new(), |mut text, byte| {
        write!(text, "{byte:02X}").unwrap();
        text
    })
}

/// The first line that was heard and is not in the print.
pub fn missing<'a>(print: &str, heard: &'a str) -> Option<&'a str> {
    let printed: HashSet<&str> = print.lines().collect();
    heard.lines().find(|line| !printed.contains(line))
}
