//! The oracle's command line.

use pico_args::Arguments;
use planner::generate::{self, calls, Kind};
use planner::holds::{self, years};
use planner::tally::{Outcomes, Tally};
use planner::{answers, lines, marked, plan, replies, stream};
use std::io::{self, Read, Write};
use std::process::ExitCode;
use terms::Fault;

const USAGE: &str = "\
oracle plan < STREAM              the lines that the Rust gives for a request, by document 01's rules
oracle marked                     what the Rust gives for P1 to P10
oracle crossing                   the stream of Crossing, to standard output
oracle case KIND NUMBER [--seed N]          the stream of a generated request, to standard output
oracle cover [--seed N] [--count N] [--kind KIND]
                                  what the generator covers: kinds, answers and refusals
oracle kinds                      the kinds of request
oracle answers [--seed N] [--count N]       the fixed list of answers on times
oracle replies [--seed N] [--count N]       the fixed list of what `plan` replies
oracle holds < TEXT               the report of a year's holds, by document 02's rules
oracle year KIND NUMBER [--seed N]          a generated text of a year's holds, to standard output
oracle years                      the kinds of such texts
";

fn main() -> ExitCode {
    match run(Arguments::from_env()) {
        Ok(()) => ExitCode::SUCCESS,
        Err(why) => {
            eprintln!("oracle: {why}");
            ExitCode::FAILURE
        }
    }
}

type Done = Result<(), String>;

fn run(mut args: Arguments) -> Done {
    let command = args.subcommand().map_err(|e| e.to_string())?;
    match command.as_deref() {
        Some("plan") => ended(args).and_then(|()| plan_stdin()),
        Some("marked") => ended(args).and_then(|()| write(marked_text().as_bytes())),
        Some("crossing") => ended(args).and_then(|()| write(&stream::written(&marked::crossing()))),
        Some("case") => one_case(args),
        Some("cover") => cover(args),
        Some("kinds") => ended(args).and_then(|()| write(kinds_text().as_bytes())),
        Some("answers") => list(args, (1, 720), answers::times),
        Some("replies") => list(args, (2, 160), replies::listed),
        Some("holds") => ended(args).and_then(|()| write(holds::reply(&stdin()?).as_bytes())),
        Some("year") => one_year(args),
        Some("years") => ended(args).and_then(|()| write(years_text().as_bytes())),
        Some(other) => Err(format!("`{other}` is no command\n{USAGE}")),
        None => Err(format!("which command?\n{USAGE}")),
    }
}

/// Prints a fixed list, with the seed and the count that are kept where none are given.
fn list(mut args: Arguments, kept: (u64, u64), listed: fn(u64, u64) -> String) -> Done {
    let seed = option(&mut args, "--seed", kept.0)?;
    let count = option(&mut args, "--count", kept.1)?;
    ended(args)?;
    write(listed(seed, count).as_bytes())
}

fn option(args: &mut Arguments, name: &'static str, default: u64) -> Result<u64, String> {
    let given = args
        .opt_value_from_str(name)
        .map_err(|e| format!("{name}: {e}"))?;
    Ok(given.unwrap_or(default))
}

fn kind(name: &str) -> Result<Kind, String> {
    let found = Kind::ALL.iter().find(|k| k.name() == name);
    found
        .copied()
        .ok_or_else(|| format!("`{name}` is no kind; `oracle kinds` lists them"))
}

fn ended(args: Arguments) -> Done {
    match args.finish().first() {
        None => Ok(()),
        Some(word) => Err(format!(
            "`{}` is not understood\n{USAGE}",
            word.to_string_lossy()
        )),
    }
}

fn write(bytes: &[u8]) -> Done {
    io::stdout()
        .write_all(bytes)
        .map_err(|e| format!("standard output: {e}"))
}

fn stdin() -> Result<Vec<u8>, String> {
    let mut bytes = Vec::new();
    io::stdin()
        .read_to_end(&mut bytes)
        .map_err(|e| format!("standard input: {e}"))?;
    Ok(bytes)
}

fn plan_stdin() -> Done {
    write(lines::of(&plan::of_stream(&stdin()?)).as_bytes())
}

/// A kind's name, a number and a seed.
fn named(mut args: Arguments) -> Result<(String, u64, u64), String> {
    let seed = option(&mut args, "--seed", 1)?;
    let name = args.free_from_str().map_err(|e| format!("a kind: {e}"))?;
    let number = args.free_from_str().map_err(|e| format!("a number: {e}"))?;
    ended(args)?;
    Ok((name, number, seed))
}

fn one_case(args: Arguments) -> Done {
    let (name, number, seed) = named(args)?;
    write(&generate::case(seed, number, Some(kind(&name)?)).bytes)
}

fn one_year(args: Arguments) -> Done {
    let (name, number, seed) = named(args)?;
    let kind = years::KINDS.iter().find(|kind| kind.name == name);
    let kind = kind.ok_or_else(|| format!("`{name}` is no kind; `oracle years` lists them"))?;
    write(&years::text(seed, number, Some(kind)).bytes)
}

fn years_text() -> String {
    let lines = years::KINDS
        .iter()
        .map(|k| format!("{:<18}{}\n", k.name, k.words));
    lines.collect()
}

fn cover(mut args: Arguments) -> Done {
    let seed = option(&mut args, "--seed", 1)?;
    let count = option(&mut args, "--count", 3_200)?;
    let only: Option<String> = args
        .opt_value_from_str("--kind")
        .map_err(|e| e.to_string())?;
    let only = only.map(|name| kind(&name)).transpose()?;
    ended(args)?;

    let mut tally = Tally::default();
    for number in 0..count {
        let case = generate::case(seed, number, only);
        tally.add(case.kind, number, &plan::of_stream(&case.bytes));
    }
    let mut near = Outcomes::default();
    let mut lent = Outcomes::default();
    for number in 0..count {
        let m = calls::meeting(seed, number);
        near.add(&mapf_watched::ask::detect_proximity(m.limit, m.a, m.b));
        if let Some(l) = calls::lent(seed, number) {
            lent.add(&path(&l));
        }
    }
    let calls = format!("proximity alone: {near}\none path with lent hints: {lent}\n");
    write(format!("{tally}{calls}").as_bytes())?;
    match tally.odd() {
        [] => Ok(()),
        odd => Err(format!("no rule covers:\n{}", odd.join("\n"))),
    }
}

fn path(l: &calls::Lent) -> Result<Option<terms::Path>, Fault> {
    let (r, budget) = (&l.request, l.request.budget.into());
    mapf_watched::ask::compute_safe_arrival_path(
        r.from, r.to, l.arrival, &l.hints, &r.scene, budget,
    )
}

fn kinds_text() -> String {
    let lines = Kind::ALL
        .iter()
        .map(|k| format!("{:<18}{}\n", k.name(), k.words()));
    lines.collect()
}

fn marked_text() -> String {
    use mapf::ask;
    use marked::*;
    let asked = |o: terms::Obstacle, at| ask::compute_safe_arrival_times(point(at), &scene(o));
    let near = |o: &terms::Obstacle| ask::detect_proximity(LIMIT, stay(only_leg(o)), only_leg(o));
    let ((a8, b8), (a9, b9)) = (head_on(), grazing());
    let r = crossing();
    let hints = ask::compute_safe_linear_path_wait_hints(r.from, r.to, &r.scene);
    let lines = [
        format!("P1 {:?}", near(&passing())),
        format!("P1 {:?}", asked(passing(), 0)),
        format!("P2 {:?}", asked(passing(), 3 * S)),
        format!("P3 {:?}", asked(stopping(), 0)),
        format!("P4 {:?}", asked(stopping(), 5 * S / 2)),
        format!("P5 {:?}", asked(turning_back(), 0)),
        format!("P6 {:?}", near(&creeping())),
        format!("P7 {:?}", near(&creeping_inside())),
        format!("P8 {:?}", ask::detect_proximity(LIMIT, a8, b8)),
        format!(
            "P8 conflict {:?}",
            ask::have_conflict(a8, HALF, b8, HALF, LIMIT)
        ),
        format!("P9 {:?}", ask::detect_proximity(LIMIT, a9, b9)),
        format!(
            "P9 conflict {:?}",
            ask::have_conflict(a9, HALF, b9, HALF, LIMIT)
        ),
        format!("P10 {hints:?}"),
    ];
    format!("{}\n{}", lines.join("\n"), lines::of(&plan::of(&r)))
}
