//! The Rust, completed by document 01's rules, gives P1 to P10 (RULES, section 16): it answers where they
//! answer, panics on P6 and goes round without end on P5.

use mapf::ask;
use planner::marked::*;
use planner::{lines, plan, stream};
use terms::{Arrivals, Fault, Proximity, WaitHint};

fn near(o: &terms::Obstacle) -> Result<Proximity, Fault> {
    let leg = only_leg(o);
    ask::detect_proximity(LIMIT, stay(leg), leg)
}

fn arrivals(o: terms::Obstacle, asked: i64) -> Result<Arrivals, Fault> {
    ask::compute_safe_arrival_times(point(asked), &scene(o))
}

fn list(times: &[i64], sweeps: usize) -> Result<Arrivals, Fault> {
    let times = times.to_vec();
    Ok(Arrivals { times, sweeps })
}

fn within(enter: i64, exit: Option<i64>) -> Result<Proximity, Fault> {
    let enter = Some(enter);
    Ok(Proximity { enter, exit })
}

#[test]
fn p1_passing() {
    assert_eq!(near(&passing()), within(2 * S, Some(4 * S)));
    assert_eq!(arrivals(passing(), 0), list(&[0, 4 * S], 2));
}

#[test]
fn p2_passing_asked_within() {
    assert_eq!(arrivals(passing(), 3 * S), list(&[4 * S], 2));
}

#[test]
fn p3_stopping() {
    assert_eq!(arrivals(stopping(), 0), list(&[0], 2));
}

#[test]
fn p4_stopping_asked_within() {
    assert_eq!(arrivals(stopping(), 5 * S / 2), list(&[], 2));
}

#[test]
fn p5_turning_back_never_ends() {
    assert_eq!(arrivals(turning_back(), 0), Err(Fault::Endless));
}

#[test]
fn p6_creeping_panics() {
    assert_eq!(near(&creeping()), Err(Fault::Creep));
}

#[test]
fn p7_creeping_inside() {
    assert_eq!(near(&creeping_inside()), within(0, None));
}

#[test]
fn p8_head_on() {
    let (a, b) = head_on();
    assert_eq!(ask::have_conflict(a, HALF, b, HALF, LIMIT), Ok(true));
    let found = ask::detect_proximity(LIMIT, a, b).expect("they meet");
    assert_eq!(found.enter, Some(9 * S / 2));
}

#[test]
fn p9_grazing() {
    let (a, b) = grazing();
    assert_eq!(ask::have_conflict(a, HALF, b, HALF, LIMIT), Ok(false));
    assert_eq!(
        ask::detect_proximity(LIMIT, a, b),
        within(3 * S, Some(3 * S))
    );
}

#[test]
fn p10_crossing() {
    let r = crossing();
    let hints = ask::compute_safe_linear_path_wait_hints(r.from, r.to, &r.scene).expect("hints");
    assert_eq!(hints.len(), 1);
    assert_eq!((hints[0].contour, hints[0].reach), (2 * S, 4.0));
    let place = WaitHint {
        x: 4.0,
        y: 0.0,
        until: 6 * S,
        obstacle: 0,
    };
    assert_eq!(hints[0].hint, place);

    let answer = plan::of_stream(&stream::written(&r));
    let whole = "ok 1 1 1 1\n\
                 path 10000000000 1 2000000000\n\
                 move 4000000000 4010000000000000 0000000000000000\n\
                 wait 0 6000000000\n\
                 move 12000000000 4024000000000000 0000000000000000\n";
    assert_eq!(lines::of(&answer), whole);
}
