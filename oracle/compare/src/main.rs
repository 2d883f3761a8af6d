//! Compares the layers that are asked for, or all, and says where the two sides differ.

use compare::layers;
use pico_args::Arguments;
use std::process::ExitCode;

const USAGE: &str = "compare [--seed N] [--count N] [LAYER ...]";

struct Asked {
    seed: u64,
    count: u64,
    layers: Vec<String>,
}

fn main() -> ExitCode {
    let asked = match read(Arguments::from_env()) {
        Ok(asked) => asked,
        Err(why) => {
            eprintln!("compare: {why}\n{USAGE}");
            return ExitCode::FAILURE;
        }
    };
    let mut differing = 0;
    for layer in layers::ALL {
        if asked.layers.is_empty() || asked.layers.iter().any(|name| name == layer.name) {
            let report = (layer.compare)(asked.seed, asked.count);
            println!("{}: {} differ\n{report}", layer.name, report.differing());
            differing += report.differing();
        }
    }
    match differing {
        0 => ExitCode::SUCCESS,
        _ => ExitCode::FAILURE,
    }
}

fn read(mut args: Arguments) -> Result<Asked, String> {
    let mut number = |name: &'static str, default: u64| {
        let given = args
            .opt_value_from_str(name)
            .map_err(|e| format!("{name}: {e}"))?;
        Ok::<u64, String>(given.unwrap_or(default))
    };
    let (seed, count) = (number("--seed", 1)?, number("--count", 100_000)?);
    let words = args.finish().into_iter();
    let layers: Vec<String> = words.map(|w| w.to_string_lossy().into_owned()).collect();
    let known = |name: &String| layers::ALL.iter().any(|layer| layer.name == name);
    match layers.iter().find(|name| !known(name)) {
        Some(name) => Err(format!("`{name}` is no layer")),
        None => Ok(Asked {
            seed,
            count,
            layers,
        }),
    }
}
