//! Instants, spans and seconds (RULES 6.1 to 6.4), in rooms of 0 to 3 words.

use crate::proved;
use crate::report::Report;
use crate::room::{lend, Expected};
use planner::answers::Call;

pub fn compare(seed: u64, count: u64) -> Report {
    let mut report = Report::default();
    for (n, call) in (0u64..).zip(Call::some(seed, count)) {
        let expected = match call.answer() {
            (0, word) => Expected::Words(vec![word]),
            (number, _) => Expected::Refused(number),
        };
        // the calls take turns by six, the rooms by four after each turn
        let len = (n / 6 % 4) as usize;
        let handed = lend(len, |out| proved(call, out));
        report.add(name(call), &handed, &expected.in_room(len), || {
            format!("{call:?} in {len} words")
        });
    }
    report
}

fn proved(call: Call, out: &mut [u64]) -> u64 {
    match call {
        Call::SpanBetween(earlier, later) => proved::span_between(earlier, later, out),
        Call::InstantAfter(instant, span) => proved::instant_after(instant, span, out),
        Call::SecondsOfInstant(instant) => proved::seconds_of_instant(instant, out),
        Call::SecondsOfSpan(span) => proved::seconds_of_span(span, out),
        Call::InstantOfSeconds(seconds) => proved::instant_of_seconds(seconds, out),
        Call::SpanOfSeconds(seconds) => proved::span_of_seconds(seconds, out),
    }
}

fn name(call: Call) -> &'static str {
    match call {
        Call::SpanBetween(..) => "span_between",
        Call::InstantAfter(..) => "instant_after",
        Call::SecondsOfInstant(_) => "seconds_of_instant",
        Call::SecondsOfSpan(_) => "seconds_of_span",
        Call::InstantOfSeconds(_) => "instant_of_seconds",
        Call::SpanOfSeconds(_) => "span_of_seconds",
    }
}
