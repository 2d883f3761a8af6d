//! The lines that `plan` prints (RULES, section 15).

use crate::plan::{Plan, Stop};
use std::fmt::Write;
use terms::Action;

pub fn of(answer: &Result<Plan, Stop>) -> String {
    match answer {
        Ok(plan) => of_plan(plan),
        Err(Stop::Refused(n)) => format!("refused {n}\n"),
        Err(Stop::Odd(fault)) => format!("odd {fault:?}\n"),
    }
}

fn of_plan(plan: &Plan) -> String {
    let (hints, paths) = (plan.hints.len(), plan.paths.len());
    let mut text = format!("ok {hints} {} {} {paths}\n", plan.arrivals, plan.sweeps);
    for path in &plan.paths {
        let _ = writeln!(text, "path {} {} {}", path.arrival, path.pops, path.hold);
        path.actions.iter().for_each(|a| line(&mut text, a));
    }
    text
}

fn line(text: &mut String, action: &Action) {
    // writing to a String cannot fail
    let _ = match action {
        Action::Move(w) => {
            writeln!(
                text,
                "move {} {:016x} {:016x}",
                w.time,
                w.x.to_bits(),
                w.y.to_bits()
            )
        }
        Action::Wait { obstacle, until } => writeln!(text, "wait {obstacle} {until}"),
    };
}
