//! The stream of `plan`: what is written is read back, and each way to be malformed is refused.

use planner::generate::{self, Kind};
use planner::marked::crossing;
use planner::plan::{of_stream, Stop};
use planner::stream;

fn malformed(bytes: &[u8]) {
    assert_eq!(of_stream(bytes).err(), Some(Stop::Refused(2)));
}

#[test]
fn what_is_written_is_read_back() {
    let made = Kind::ALL
        .iter()
        .filter(|k| !matches!(k, Kind::damaged | Kind::noise));
    for kind in made {
        for number in 0..40 {
            let bytes = generate::case(3, number, Some(*kind)).bytes;
            let request = stream::read(&bytes).expect("a written stream is read");
            assert_eq!(stream::written(&request), bytes, "{} {number}", kind.name());
        }
    }
}

#[test]
fn crossing_has_its_size() {
    // 4 + 6 + 16, two radii, two waypoints; three numbers, a count and two waypoints
    let bits = 26 + 2 * 64 + 2 * 178 + 3 * 64 + 9 + 2 * 178;
    assert_eq!(stream::written(&crossing()).len(), usize::div_ceil(bits, 8));
}

#[test]
fn malformed_streams() {
    let good = stream::written(&crossing());
    (0..good.len()).for_each(|len| malformed(&good[..len]));
    malformed(&[good.clone(), vec![0]].concat());
    let mut filled = good.clone();
    *filled.last_mut().expect("a byte") |= 1;
    malformed(&filled);
    for edition in (0..16).filter(|e| *e != 1) {
        let mut other = good.clone();
        other[0] = other[0] & 0x0f | edition << 4;
        malformed(&other);
    }
}
