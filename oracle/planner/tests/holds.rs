//! A year's holding time, rule by rule (RULES, section 21): each limit is taken and one past it is
//! refused, the first line that cannot be taken decides, and the generator reaches all of it.

use planner::holds::fed::{Fed, WORDS};
use planner::holds::years::{self, KINDS};
use planner::holds::{held, lines, reply, year, Held, CREWS, LINE, LINES, OVERFLOW};
use std::collections::BTreeMap;

const MOST: &str = "9223372036854775807";
const LEAST: &str = "-9223372036854775808";

fn number(text: &[u8]) -> u8 {
    year(text).err().unwrap_or(0)
}

fn refused(text: &str) -> u8 {
    number(text.as_bytes())
}

/// The fields behind `crew N` in the report of a text.
fn crew(text: &str, n: usize) -> String {
    let reply = reply(text.as_bytes());
    let line = reply.lines().nth(n + 1).expect("a line for each crew");
    let fields = line.strip_prefix(&format!("crew {n} "));
    fields.expect("the crews in their order").to_string()
}

// ---- Lines (RULES 21.1 to 21.4).

#[test]
fn a_text_has_its_lines() {
    let none: [&[u8]; 0] = [];
    assert_eq!(lines(b""), none);
    assert_eq!(lines(b"\n"), [b""]);
    assert_eq!(lines(b"a\nb"), [b"a", b"b"]);
    assert_eq!(lines(b"a\nb\n"), [b"a", b"b"]);
    assert_eq!(lines(b"a\n\n"), [&b"a"[..], b""]);
}

#[test]
fn a_line_says_a_crew_a_round_and_a_hold() {
    let said = |crew, round, hold| Some(Held { crew, round, hold });
    assert_eq!(held(b"0 0 0"), said(0, 0, 0));
    assert_eq!(held(b"63 4294967295 -1"), said(63, u32::MAX, -1));
    let most = format!("7 1 {MOST}");
    assert_eq!(held(most.as_bytes()), said(7, 1, i64::MAX));
    let least = format!("7 1 {LEAST}");
    assert_eq!(held(least.as_bytes()), said(7, 1, i64::MIN));
}

#[test]
fn one_past_each_limit_is_malformed() {
    for line in [
        "64 0 0",
        "0 4294967296 0",
        "0 0 9223372036854775808",
        "0 0 -9223372036854775809",
        "18446744073709551616 0 0",
        "0 18446744073709551616 0",
        "0 0 9999999999999999999999999",
    ] {
        assert_eq!(held(line.as_bytes()), None, "{line}");
    }
}

#[test]
fn any_other_form_is_malformed() {
    for line in [
        "",
        " ",
        "0",
        "0 0",
        "0 0 ",
        "0 0 0 ",
        " 0 0 0",
        "0  0 0",
        "0 0  0",
        "0 0 0 0",
        "00 0 0",
        "01 0 0",
        "0 00 0",
        "0 01 0",
        "0 0 00",
        "0 0 01",
        "0 0 -0",
        "0 0 -01",
        "0 0 -",
        "0 0 --1",
        "0 0 +1",
        "+1 0 0",
        "-1 0 0",
        "0 -1 0",
        "0 0 1-",
        "0 0 1\r",
        "0\t0 0",
        "0 0 1\t",
        "0 0 1.0",
        "0 0 1e3",
        "0 0 0x1",
        "a 0 0",
        "0 0 1_0",
        "0 0 \u{661}",
    ] {
        assert_eq!(held(line.as_bytes()), None, "{line:?}");
    }
    assert_eq!(held(b"0 0 \xff"), None);
    assert_eq!(held(b"0 0 1\0"), None);
}

#[test]
fn the_last_newline_may_be_missing() {
    assert_eq!(reply(b"5 1 2\n5 1 3"), reply(b"5 1 2\n5 1 3\n"));
    assert_eq!(refused("5 1 2\n5 1"), LINE);
    assert_eq!(refused("5 1 2\n\n"), LINE);
    assert_eq!(refused("\n5 1 2\n"), LINE);
    assert_eq!(refused("5 1 2\r\n"), LINE);
}

// ---- Refusals (RULES 21.5, 21.6).

#[test]
fn the_line_past_the_most_is_refused_whatever_it_says() {
    let full = "3 1 2\n".repeat(LINES);
    assert_eq!(refused(&full[..full.len() - 6]), 0);
    assert_eq!(refused(&full), 0);
    assert_eq!(refused(&full[..full.len() - 1]), 0);
    for more in ["3 1 2\n", "3", "\n"] {
        assert_eq!(refused(&format!("{full}{more}")), LINE, "{more:?}");
    }
    assert_eq!(refused(&format!("{full}3 1 {MOST}\n")), LINE);
    assert_eq!(crew(&full, 3), "100000 200000 2 2 0");
}

#[test]
fn a_total_may_come_to_a_limit_and_not_past_it() {
    assert_eq!(refused(&format!("3 1 {MOST}\n3 1 0\n")), 0);
    assert_eq!(refused(&format!("3 1 {MOST}\n3 1 1\n")), OVERFLOW);
    assert_eq!(refused(&format!("3 1 {LEAST}\n3 1 0\n")), 0);
    assert_eq!(refused(&format!("3 1 {LEAST}\n3 1 -1\n")), OVERFLOW);
    assert_eq!(refused(&format!("3 1 {MOST}\n3 1 {MOST}\n")), OVERFLOW);
    assert_eq!(refused(&format!("3 1 {LEAST}\n3 1 {LEAST}")), OVERFLOW);
    // back from the limit, and past it only in the sum of two crews
    assert_eq!(refused(&format!("3 1 {MOST}\n3 1 -1\n3 1 1\n")), 0);
    assert_eq!(refused(&format!("3 1 {MOST}\n4 1 {MOST}\n")), 0);
    // the running total decides, not the sum of all
    assert_eq!(refused(&format!("3 1 {MOST}\n3 1 1\n3 1 -5\n")), OVERFLOW);
}

#[test]
fn the_first_line_that_is_refused_decides() {
    let over = format!("3 1 {MOST}\n3 1 1\n");
    assert_eq!(refused(&format!("{over}64 1 1\n")), OVERFLOW);
    assert_eq!(refused(&format!("64 1 1\n{over}")), LINE);
    assert_eq!(refused(&format!("3 1 {MOST}\n64 1 1\n3 1 1\n")), LINE);
}

#[test]
fn of_one_line_the_form_comes_first() {
    for line in ["3 1 1 ", "3 01 1", "3 1 1\r", "03 1 1"] {
        assert_eq!(refused(&format!("3 1 {MOST}\n{line}\n")), LINE, "{line:?}");
    }
}

// ---- The report (RULES 21.7 to 21.10).

#[test]
fn an_empty_text_has_64_crews_without_rounds() {
    let report = reply(b"");
    assert_eq!(report.lines().count(), 1 + CREWS);
    assert!(report.starts_with("ok 0\ncrew 0 0 0\n"));
    assert!(report.ends_with("\ncrew 63 0 0\n"));
}

#[test]
fn a_refusal_prints_its_line_alone() {
    assert_eq!(reply(b"0 1 5\nx"), "refused 14\n");
    let over = format!("0 1 {LEAST}\n0 1 -1");
    assert_eq!(reply(over.as_bytes()), "refused 15\n");
}

#[test]
fn a_crew_has_its_own_lines() {
    let text = "0 1 5\n63 0 -7\n0 4294967295 -8\n0 1 5";
    assert!(reply(text.as_bytes()).starts_with("ok 4\n"));
    assert_eq!(crew(text, 0), "3 2 5 0 2");
    assert_eq!(crew(text, 63), "1 -7 -7 -7 0");
    assert_eq!(crew(text, 1), "0 0");
}

#[test]
fn a_mean_is_at_or_below_and_its_remainder_is_not_below_zero() {
    assert_eq!(crew("1 1 7\n1 1 0\n1 1 0\n", 1), "3 7 7 2 1");
    assert_eq!(crew("1 1 -7\n1 1 0\n1 1 0\n", 1), "3 -7 0 -3 2");
    assert_eq!(crew("1 1 -6\n1 1 0\n1 1 0\n", 1), "3 -6 0 -2 0");
    assert_eq!(crew("1 1 -1\n1 1 0\n", 1), "2 -1 0 -1 1");
    let least = format!("1 1 {LEAST}\n1 1 0\n1 1 0\n");
    assert_eq!(
        crew(&least, 1),
        format!("3 {LEAST} 0 -3074457345618258603 1")
    );
}

#[test]
fn a_largest_may_be_below_zero() {
    assert_eq!(crew("2 1 -9\n2 2 -4\n2 3 -6\n", 2), "3 -19 -4 -7 2");
    assert_eq!(
        crew(&format!("2 1 {LEAST}\n"), 2),
        format!("1 {LEAST} {LEAST} {LEAST} 0")
    );
}

#[test]
fn the_longest_report_has_its_size() {
    // the line of a crew without rounds has 11 bytes or 12; the room of the program is for 64 lines
    // of 84 and `ok 100000`
    assert_eq!(reply(b"").len(), 5 + 10 * 11 + 54 * 12);
    let mut longest = 0;
    for number in 0..500 {
        longest = longest.max(reply(&years::text(4, number, None).bytes).len());
    }
    assert!(longest <= 64 * 84 + 10, "{longest}");
}

#[test]
fn the_example_has_its_report() {
    let text = include_bytes!("../../../examples/year.holds");
    assert_eq!(reply(text), include_str!("../../../examples/year.report"));
}

// ---- Parts (RULES 21.11, 21.12).

/// The words after a text was fed in parts of so many bytes, or the number of its refusal.
fn fed(text: &[u8], bytes: usize) -> Result<Vec<u64>, u8> {
    let mut fed = Fed::default();
    for part in text.chunks(bytes) {
        fed.feed(part)?;
    }
    Ok(fed.words().expect("a year that is not refused"))
}

/// The five words in front.
fn front(text: &str) -> Vec<u64> {
    let words = fed(text.as_bytes(), text.len().max(1)).expect("a beginning");
    assert_eq!(words.len(), WORDS);
    words[..5].to_vec()
}

#[test]
fn the_memory_tells_the_place_in_a_line() {
    assert_eq!(front(""), [1, 0, 0, 0, 0]);
    assert_eq!(front("6"), [1, 0, 1, 0, 6]);
    assert_eq!(front("63"), [1, 0, 1, 0, 63]);
    assert_eq!(front("63 "), [1, 0, 2, 63, 0]);
    assert_eq!(front("63 12"), [1, 0, 3, 63, 12]);
    assert_eq!(front("63 12 "), [1, 0, 4, 63, 0]);
    assert_eq!(front("63 12 -"), [1, 0, 5, 63, 0]);
    assert_eq!(front("63 12 0"), [1, 0, 6, 63, 0]);
    assert_eq!(
        front(&format!("63 12 {MOST}")),
        [1, 0, 6, 63, (1 << 63) - 1]
    );
    assert_eq!(front(&format!("63 12 {LEAST}")), [1, 0, 7, 63, 1 << 63]);
    assert_eq!(front("63 12 5\n"), [1, 1, 0, 0, 0]);
    assert_eq!(front("63 12 5\n0 0 0\n4"), [1, 2, 1, 0, 4]);
}

#[test]
fn the_memory_has_each_crews_figures_raised() {
    let words = fed(b"0 1 5\n0 1 -9\n63 1 -1\n", 4).expect("three lines");
    let half = 1 << 63;
    assert_eq!(words[5..8], [2, half - 4, half + 5]);
    assert_eq!(words[194..], [1, half - 1, half - 1]);
    assert!(words[8..194].iter().all(|word| *word == 0));
}

#[test]
fn a_text_is_refused_at_the_byte_with_which_it_can_be_none() {
    for (taken, byte) in [
        ("", " "),
        ("6", "4"),
        ("0", "0"),
        ("", "\n"),
        ("1 2 ", "\n"),
        ("1 2 -", "0"),
        ("1 2 3", " "),
        ("1 4294967295", "0"),
        ("1 2 922337203685477580", "8"),
        ("1 2 -922337203685477580", "9"),
    ] {
        let mut fed = Fed::default();
        assert_eq!(fed.feed(taken.as_bytes()), Ok(()), "{taken:?}");
        assert_eq!(fed.feed(byte.as_bytes()), Err(LINE), "{taken:?}");
    }
}

#[test]
fn the_answer_does_not_depend_on_the_parts() {
    for number in 0..1_000 {
        let text = years::text(5, number, None).bytes;
        for bytes in [1, 3, 64, text.len().max(1)] {
            let mut fed = Fed::default();
            let parts = text.chunks(bytes).try_for_each(|part| fed.feed(part));
            let ended = parts.and_then(|()| fed.finish());
            assert_eq!(ended, year(&text), "text {number} in parts of {bytes}");
        }
    }
}

// ---- The generator.

#[test]
fn a_text_depends_on_its_seed_and_number_alone() {
    for number in [0, 7, 19, 23] {
        let again = |seed| years::text(seed, number, None).bytes;
        assert_eq!(again(1), again(1));
    }
    assert_ne!(years::text(1, 0, None).bytes, years::text(2, 0, None).bytes);
}

#[test]
fn every_kind_ends_as_it_is_meant_to() {
    let mut ends: BTreeMap<(&str, u8), usize> = BTreeMap::new();
    for n in 0..=years::SELDOM {
        let text = years::text(11, n, None);
        *ends
            .entry((text.kind.name, number(&text.bytes)))
            .or_default() += 1;
    }
    let seen = |kind: &str, n| {
        ends.iter()
            .find(|((k, m), _)| *k == kind && *m == n)
            .map_or(0, |(_, c)| *c)
    };
    for kind in KINDS {
        let all: usize = [0, LINE, OVERFLOW]
            .iter()
            .map(|n| seen(kind.name, *n))
            .sum();
        assert!(all >= 1, "{} {ends:?}", kind.name);
    }
    for taken in [
        "ordinary",
        "one_crew",
        "all_crews",
        "small",
        "nothing",
        "limits",
        "totals",
        "unended",
        "cut",
    ] {
        assert!(seen(taken, 0) >= 30, "{taken} {ends:?}");
    }
    for kind in [
        "beyond",
        "empty_lines",
        "spaces",
        "zeros",
        "fields",
        "long",
        "stray",
        "both",
        "noise",
    ] {
        assert!(seen(kind, LINE) >= 30, "{kind} {ends:?}");
    }
    for kind in ["overflow", "both", "unended"] {
        assert!(seen(kind, OVERFLOW) >= 30, "{kind} {ends:?}");
    }
    assert_eq!(seen("overflow", 0), 0);
    assert_eq!(seen("both", 0), 0);
}
