//! On what machine the figures were taken, as far as the program can tell.

use std::env::{self, consts::ARCH};
use std::fs;

/// How the C library, which copies and clears for both sides, is told to do it.
const TUNABLES: &str = "GLIBC_TUNABLES";

/// The machine, in words: those that were given, or what the list of processors says.
pub fn told(given: Option<String>) -> String {
    let processors = fs::read_to_string("/proc/cpuinfo").unwrap_or_default();
    let machine = given.unwrap_or_else(|| of(&processors));
    match env::var(TUNABLES) {
        Ok(tuned) => format!("{machine}, {TUNABLES}={tuned}"),
        Err(_) => machine,
    }
}

/// A program for this architecture that runs where the processors are others is emulated.
fn of(processors: &str) -> String {
    let named = |name: &str| {
        let line = processors.lines().find(|line| line.starts_with(name))?;
        line.split_once(':').map(|(_, text)| text.trim().to_owned())
    };
    match (named("model name"), named("CPU implementer")) {
        (_, Some(_)) => format!("{ARCH}, emulated on ARM"),
        (Some(name), None) => format!("{ARCH}, {name}"),
        (None, None) => format!("{ARCH}, the processor is unknown: --machine says which"),
    }
}

#[cfg(test)]
mod tests {
    use super::*;

    #[test]
    fn the_list_of_processors_tells_an_emulated_machine() {
        assert!(of("processor\t: 0\nCPU implementer\t: 0x41\n").ends_with("emulated on ARM"));
        assert!(of("model name\t: Some 5\n").ends_with(", Some 5"));
        assert!(of("").contains("unknown"));
    }

    #[test]
    fn what_is_given_goes_first() {
        assert!(told(Some(String::from("mine"))).starts_with("mine"));
    }
}
