//! The fixed list of replies that the program `plan` is held to: for each case a line with its kind,
//! its number and its stream in hexadecimal digits, then the lines of the reply.

use crate::generate::case;
use crate::{lines, plan};
use std::fmt::Write;

pub fn listed(seed: u64, count: u64) -> String {
    let mut list = String::new();
    for number in 0..count {
        let made = case(seed, number, None);
        let stream: String = made.bytes.iter().map(|b| format!("{b:02x}")).collect();
        let reply = lines::of(&plan::of_stream(&made.bytes));
        // writing to a String cannot fail
        let _ = write!(list, "case {} {number} {stream}\n{reply}", made.kind.name());
    }
    list
}
