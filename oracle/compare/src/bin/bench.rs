//! Times the proved calls against the Rust's, both sides in one process, both optimised and on the
//! same inputs, in rounds that take turns.

use compare::{benches, machine};
use pico_args::Arguments;
use std::process::ExitCode;

const USAGE: &str = "bench [--rounds N] [--machine TEXT] [PART ...]";

/// What is inside the figures and what is not.
const INSIDE: &str = "\
a call of the proved side examines its input, works, and clears the room behind its answer
a call of the Rust runs on its own types, made before with the obstacles' boxes; its answer is dropped
the median of the rounds, each 20 ms of processor time or more on each side
the ratio of the medians, and its spread over the rounds";

struct Asked {
    rounds: usize,
    machine: Option<String>,
    parts: Vec<String>,
}

fn main() -> ExitCode {
    let asked = match read(Arguments::from_env()) {
        Ok(asked) => asked,
        Err(why) => {
            let names: Vec<&str> = benches::ALL.iter().map(|part| part.name).collect();
            eprintln!("bench: {why}\n{USAGE}\nparts: {}", names.join(" "));
            return ExitCode::FAILURE;
        }
    };
    println!("machine: {}\n{INSIDE}", machine::told(asked.machine));
    for part in benches::ALL {
        if asked.parts.is_empty() || asked.parts.iter().any(|name| name == part.name) {
            print!("{}", (part.time)(asked.rounds));
        }
    }
    ExitCode::SUCCESS
}

fn read(mut args: Arguments) -> Result<Asked, String> {
    let said = |e: pico_args::Error| e.to_string();
    let rounds: Option<usize> = args.opt_value_from_str("--rounds").map_err(said)?;
    let rounds = rounds.unwrap_or(21);
    let machine = args.opt_value_from_str("--machine").map_err(said)?;
    let words = args.finish().into_iter();
    let parts: Vec<String> = words.map(|w| w.to_string_lossy().into_owned()).collect();
    let known = |name: &String| benches::ALL.iter().any(|part| part.name == name);
    match parts.iter().find(|name| !known(name)) {
        Some(name) => Err(format!("`{name}` is no part")),
        None if rounds == 0 => Err(String::from("at least one round")),
        None => Ok(Asked {
            rounds,
            machine,
            parts,
        }),
    }
}
