//! The proved calls, as include/igelbert.h declares them.

use crate::table::Table;
use mapf::ask::Bounds;
use terms::{Leg, Obstacle, Profile, Waypoint};

extern "C" {
    fn igelbert_square_root(x: f64, out: *mut u64, out_len: usize) -> u64;
    fn igelbert_span_between(earlier: i64, later: i64, out: *mut u64, out_len: usize) -> u64;
    fn igelbert_instant_after(instant: i64, span: i64, out: *mut u64, out_len: usize) -> u64;
    fn igelbert_seconds_of_instant(instant: i64, out: *mut u64, out_len: usize) -> u64;
    fn igelbert_seconds_of_span(span: i64, out: *mut u64, out_len: usize) -> u64;
    fn igelbert_instant_of_seconds(seconds: f64, out: *mut u64, out_len: usize) -> u64;
    fn igelbert_span_of_seconds(seconds: f64, out: *mut u64, out_len: usize) -> u64;
    fn igelbert_position(
        t0: i64,
        x0: f64,
        y0: f64,
        t1: i64,
        x1: f64,
        y1: f64,
        t: i64,
        out: *mut u64,
        out_len: usize,
    ) -> u64;
    fn igelbert_detect_proximity(
        limit: f64,
        t0: i64,
        x0: f64,
        y0: f64,
        t1: i64,
        x1: f64,
        y1: f64,
        t2: i64,
        x2: f64,
        y2: f64,
        t3: i64,
        x3: f64,
        y3: f64,
        out: *mut u64,
        out_len: usize,
    ) -> u64;
    fn igelbert_have_conflict(
        footprint: f64,
        follow: f64,
        t0: i64,
        x0: f64,
        y0: f64,
        t1: i64,
        x1: f64,
        y1: f64,
        footprint2: f64,
        follow2: f64,
        t2: i64,
        x2: f64,
        y2: f64,
        t3: i64,
        x3: f64,
        y3: f64,
        limit: f64,
        out: *mut u64,
        out_len: usize,
    ) -> u64;
    fn igelbert_stationary_proximity(
        rx: f64,
        ry: f64,
        px: f64,
        py: f64,
        vx: f64,
        vy: f64,
        limit: f64,
        out: *mut u64,
        out_len: usize,
    ) -> u64;
    fn igelbert_is_safe_segment(
        footprint: f64,
        follow: f64,
        t0: i64,
        x0: f64,
        y0: f64,
        t1: i64,
        x1: f64,
        y1: f64,
        starts: *const usize,
        starts_len: usize,
        numbers: *const f64,
        numbers_len: usize,
        times: *const i64,
        times_len: usize,
        xs: *const f64,
        xs_len: usize,
        ys: *const f64,
        ys_len: usize,
        out: *mut u64,
        out_len: usize,
    ) -> u64;
    fn igelbert_wait_hints(
        footprint: f64,
        follow: f64,
        t0: i64,
        x0: f64,
        y0: f64,
        t1: i64,
        x1: f64,
        y1: f64,
        starts: *const usize,
        starts_len: usize,
        numbers: *const f64,
        numbers_len: usize,
        times: *const i64,
        times_len: usize,
        xs: *const f64,
        xs_len: usize,
        ys: *const f64,
        ys_len: usize,
        out: *mut u64,
        out_len: usize,
    ) -> u64;
    fn igelbert_arrival_times(
        footprint: f64,
        follow: f64,
        t: i64,
        x: f64,
        y: f64,
        starts: *const usize,
        starts_len: usize,
        numbers: *const f64,
        numbers_len: usize,
        times: *const i64,
        times_len: usize,
        xs: *const f64,
        xs_len: usize,
        ys: *const f64,
        ys_len: usize,
        out: *mut u64,
        out_len: usize,
    ) -> u64;
    fn igelbert_arrival_path(
        footprint: f64,
        follow: f64,
        t0: i64,
        x0: f64,
        y0: f64,
        t1: i64,
        x1: f64,
        y1: f64,
        arrival: i64,
        budget: u64,
        starts: *const usize,
        starts_len: usize,
        numbers: *const f64,
        numbers_len: usize,
        times: *const i64,
        times_len: usize,
        xs: *const f64,
        xs_len: usize,
        ys: *const f64,
        ys_len: usize,
        hints: *const u64,
        hints_len: usize,
        out: *mut u64,
        out_len: usize,
    ) -> u64;
    fn igelbert_linear_paths(
        footprint: f64,
        follow: f64,
        t0: i64,
        x0: f64,
        y0: f64,
        t1: i64,
        x1: f64,
        y1: f64,
        budget: u64,
        starts: *const usize,
        starts_len: usize,
        numbers: *const f64,
        numbers_len: usize,
        times: *const i64,
        times_len: usize,
        xs: *const f64,
        xs_len: usize,
        ys: *const f64,
        ys_len: usize,
        paths: *mut u64,
        paths_len: usize,
        actions: *mut u64,
        actions_len: usize,
    ) -> u64;
    fn igelbert_critical_distance(
        footprint: f64,
        follow: f64,
        footprint2: f64,
        follow2: f64,
        out: *mut u64,
        out_len: usize,
    ) -> u64;
    fn igelbert_critical_distance_squared(
        footprint: f64,
        follow: f64,
        footprint2: f64,
        follow2: f64,
        out: *mut u64,
        out_len: usize,
    ) -> u64;
    fn igelbert_follow_distance(
        footprint: f64,
        follow: f64,
        footprint2: f64,
        follow2: f64,
        out: *mut u64,
        out_len: usize,
    ) -> u64;
    fn igelbert_box_of_leg(
        footprint: f64,
        follow: f64,
        t0: i64,
        x0: f64,
        y0: f64,
        t1: i64,
        x1: f64,
        y1: f64,
        out: *mut u64,
        out_len: usize,
    ) -> u64;
    fn igelbert_box_of_obstacle(
        footprint: f64,
        follow: f64,
        times: *const i64,
        times_len: usize,
        xs: *const f64,
        xs_len: usize,
        ys: *const f64,
        ys_len: usize,
        out: *mut u64,
        out_len: usize,
    ) -> u64;
    fn igelbert_boxes_overlap(
        left: f64,
        bottom: f64,
        right: f64,
        top: f64,
        left2: f64,
        bottom2: f64,
        right2: f64,
        top2: f64,
        out: *mut u64,
        out_len: usize,
    ) -> u64;
    fn igelbert_plan(stream: *const u8, stream_len: usize, out: *mut u8, out_len: usize) -> u64;
    fn igelbert_holds_begin(memory: *mut u64, memory_len: usize) -> u64;
    fn igelbert_holds_feed(
        part: *const u8,
        part_len: usize,
        memory: *mut u64,
        memory_len: usize,
    ) -> u64;
    fn igelbert_holds_finish(
        memory: *const u64,
        memory_len: usize,
        out: *mut u8,
        out_len: usize,
    ) -> u64;
}

// SAFETY, of each call below: each pointer and its length are those of one slice, and those written
// to are exclusive ones, which is all that the proved functions ask of a caller.

pub fn square_root(x: f64, out: &mut [u64]) -> u64 {
    unsafe { igelbert_square_root(x, out.as_mut_ptr(), out.len()) }
}

pub fn span_between(earlier: i64, later: i64, out: &mut [u64]) -> u64 {
    unsafe { igelbert_span_between(earlier, later, out.as_mut_ptr(), out.len()) }
}

pub fn instant_after(instant: i64, span: i64, out: &mut [u64]) -> u64 {
    unsafe { igelbert_instant_after(instant, span, out.as_mut_ptr(), out.len()) }
}

pub fn seconds_of_instant(instant: i64, out: &mut [u64]) -> u64 {
    unsafe { igelbert_seconds_of_instant(instant, out.as_mut_ptr(), out.len()) }
}

pub fn seconds_of_span(span: i64, out: &mut [u64]) -> u64 {
    unsafe { igelbert_seconds_of_span(span, out.as_mut_ptr(), out.len()) }
}

pub fn instant_of_seconds(seconds: f64, out: &mut [u64]) -> u64 {
    unsafe { igelbert_instant_of_seconds(seconds, out.as_mut_ptr(), out.len()) }
}

pub fn span_of_seconds(seconds: f64, out: &mut [u64]) -> u64 {
    unsafe { igelbert_span_of_seconds(seconds, out.as_mut_ptr(), out.len()) }
}

pub fn critical_distance(p: Profile, q: Profile, out: &mut [u64]) -> u64 {
    let (out, len) = (out.as_mut_ptr(), out.len());
    unsafe { igelbert_critical_distance(p.footprint, p.follow, q.footprint, q.follow, out, len) }
}

pub fn critical_distance_squared(p: Profile, q: Profile, out: &mut [u64]) -> u64 {
    let (out, len) = (out.as_mut_ptr(), out.len());
    unsafe {
        igelbert_critical_distance_squared(p.footprint, p.follow, q.footprint, q.follow, out, len)
    }
}

pub fn follow_distance(p: Profile, q: Profile, out: &mut [u64]) -> u64 {
    let (out, len) = (out.as_mut_ptr(), out.len());
    unsafe { igelbert_follow_distance(p.footprint, p.follow, q.footprint, q.follow, out, len) }
}

pub fn box_of_leg(p: Profile, (a, b): Leg, out: &mut [u64]) -> u64 {
    let (out, len) = (out.as_mut_ptr(), out.len());
    unsafe {
        igelbert_box_of_leg(
            p.footprint,
            p.follow,
            a.time,
            a.x,
            a.y,
            b.time,
            b.x,
            b.y,
            out,
            len,
        )
    }
}

pub fn box_of_obstacle(o: &Obstacle, out: &mut [u64]) -> u64 {
    let times: Vec<i64> = o.waypoints.iter().map(|w| w.time).collect();
    let xs: Vec<f64> = o.waypoints.iter().map(|w| w.x).collect();
    let ys: Vec<f64> = o.waypoints.iter().map(|w| w.y).collect();
    unsafe {
        igelbert_box_of_obstacle(
            o.profile.footprint,
            o.profile.follow,
            times.as_ptr(),
            times.len(),
            xs.as_ptr(),
            xs.len(),
            ys.as_ptr(),
            ys.len(),
            out.as_mut_ptr(),
            out.len(),
        )
    }
}

pub fn boxes_overlap((p, q): Bounds, (r, s): Bounds, out: &mut [u64]) -> u64 {
    let (out, len) = (out.as_mut_ptr(), out.len());
    unsafe { igelbert_boxes_overlap(p.0, p.1, q.0, q.1, r.0, r.1, s.0, s.1, out, len) }
}

pub fn position((a, b): Leg, time: i64, out: &mut [u64]) -> u64 {
    let (out, len) = (out.as_mut_ptr(), out.len());
    unsafe { igelbert_position(a.time, a.x, a.y, b.time, b.x, b.y, time, out, len) }
}

pub fn detect_proximity(limit: f64, (a, b): Leg, (c, d): Leg, out: &mut [u64]) -> u64 {
    let (out, len) = (out.as_mut_ptr(), out.len());
    unsafe {
        igelbert_detect_proximity(
            limit, a.time, a.x, a.y, b.time, b.x, b.y, c.time, c.x, c.y, d.time, d.x, d.y, out, len,
        )
    }
}

pub fn have_conflict(
    (p, (a, b)): (Profile, Leg),
    (q, (c, d)): (Profile, Leg),
    limit: f64,
    out: &mut [u64],
) -> u64 {
    let (out, len) = (out.as_mut_ptr(), out.len());
    unsafe {
        igelbert_have_conflict(
            p.footprint,
            p.follow,
            a.time,
            a.x,
            a.y,
            b.time,
            b.x,
            b.y,
            q.footprint,
            q.follow,
            c.time,
            c.x,
            c.y,
            d.time,
            d.x,
            d.y,
            limit,
            out,
            len,
        )
    }
}

pub fn is_safe_segment(p: Profile, (a, b): Leg, table: &Table, out: &mut [u64]) -> u64 {
    unsafe {
        igelbert_is_safe_segment(
            p.footprint,
            p.follow,
            a.time,
            a.x,
            a.y,
            b.time,
            b.x,
            b.y,
            table.starts.as_ptr(),
            table.starts.len(),
            table.numbers.as_ptr(),
            table.numbers.len(),
            table.times.as_ptr(),
            table.times.len(),
            table.xs.as_ptr(),
            table.xs.len(),
            table.ys.as_ptr(),
            table.ys.len(),
            out.as_mut_ptr(),
            out.len(),
        )
    }
}

pub fn wait_hints(p: Profile, (a, b): Leg, table: &Table, out: &mut [u64]) -> u64 {
    unsafe {
        igelbert_wait_hints(
            p.footprint,
            p.follow,
            a.time,
            a.x,
            a.y,
            b.time,
            b.x,
            b.y,
            table.starts.as_ptr(),
            table.starts.len(),
            table.numbers.as_ptr(),
            table.numbers.len(),
            table.times.as_ptr(),
            table.times.len(),
            table.xs.as_ptr(),
            table.xs.len(),
            table.ys.as_ptr(),
            table.ys.len(),
            out.as_mut_ptr(),
            out.len(),
        )
    }
}

pub fn arrival_times(p: Profile, place: Waypoint, table: &Table, out: &mut [u64]) -> u64 {
    unsafe {
        igelbert_arrival_times(
            p.footprint,
            p.follow,
            place.time,
            place.x,
            place.y,
            table.starts.as_ptr(),
            table.starts.len(),
            table.numbers.as_ptr(),
            table.numbers.len(),
            table.times.as_ptr(),
            table.times.len(),
            table.xs.as_ptr(),
            table.xs.len(),
            table.ys.as_ptr(),
            table.ys.len(),
            out.as_mut_ptr(),
            out.len(),
        )
    }
}

pub fn arrival_path(
    p: Profile,
    (a, b): Leg,
    arrival: i64,
    budget: u64,
    table: &Table,
    hints: &[u64],
    out: &mut [u64],
) -> u64 {
    unsafe {
        igelbert_arrival_path(
            p.footprint,
            p.follow,
            a.time,
            a.x,
            a.y,
            b.time,
            b.x,
            b.y,
            arrival,
            budget,
            table.starts.as_ptr(),
            table.starts.len(),
            table.numbers.as_ptr(),
            table.numbers.len(),
            table.times.as_ptr(),
            table.times.len(),
            table.xs.as_ptr(),
            table.xs.len(),
            table.ys.as_ptr(),
            table.ys.len(),
            hints.as_ptr(),
            hints.len(),
            out.as_mut_ptr(),
            out.len(),
        )
    }
}

pub fn linear_paths(
    p: Profile,
    (a, b): Leg,
    budget: u64,
    table: &Table,
    paths: &mut [u64],
    actions: &mut [u64],
) -> u64 {
    unsafe {
        igelbert_linear_paths(
            p.footprint,
            p.follow,
            a.time,
            a.x,
            a.y,
            b.time,
            b.x,
            b.y,
            budget,
            table.starts.as_ptr(),
            table.starts.len(),
            table.numbers.as_ptr(),
            table.numbers.len(),
            table.times.as_ptr(),
            table.times.len(),
            table.xs.as_ptr(),
            table.xs.len(),
            table.ys.as_ptr(),
            table.ys.len(),
            paths.as_mut_ptr(),
            paths.len(),
            actions.as_mut_ptr(),
            actions.len(),
        )
    }
}

pub fn plan(stream: &[u8], out: &mut [u8]) -> u64 {
    unsafe { igelbert_plan(stream.as_ptr(), stream.len(), out.as_mut_ptr(), out.len()) }
}

pub fn holds_begin(memory: &mut [u64]) -> u64 {
    unsafe { igelbert_holds_begin(memory.as_mut_ptr(), memory.len()) }
}

pub fn holds_feed(part: &[u8], memory: &mut [u64]) -> u64 {
    let (memory, len) = (memory.as_mut_ptr(), memory.len());
    unsafe { igelbert_holds_feed(part.as_ptr(), part.len(), memory, len) }
}

pub fn holds_finish(memory: &[u64], out: &mut [u8]) -> u64 {
    unsafe { igelbert_holds_finish(memory.as_ptr(), memory.len(), out.as_mut_ptr(), out.len()) }
}

pub fn stationary_proximity(
    r: (f64, f64),
    p: (f64, f64),
    v: (f64, f64),
    limit: f64,
    out: &mut [u64],
) -> u64 {
    let (out, len) = (out.as_mut_ptr(), out.len());
    unsafe { igelbert_stationary_proximity(r.0, r.1, p.0, p.1, v.0, v.1, limit, out, len) }
}
