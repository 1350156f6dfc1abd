// The station by every length and every span, straight from 01's words, against the quick one.
// 01: "One station, used for queues and ports".
use super::Report;
use crate::make::random::Rng;
use crate::paper::station::{self, Flow, LIMIT};

fn flow(period: u64, jitter: u64, cost: u64) -> Flow {
    Flow { period, jitter, cost }
}

/// Small stations, each with a limit that can be tried length by length.
fn small_stations() -> impl Iterator<Item = (Vec<Flow>, u64)> {
    (0..60_000).map(|number| {
        let rng = &mut Rng::part(1, number);
        let (widest, limit) = rng.pick(&[(6, 60), (20, 300), (60, 1_500)]);
        let mut flows = Vec::new();
        let count = rng.below(6);
        for _ in 0..count {
            let period = rng.between(1, widest);
            let jitter = rng.below(3 * period + 1);
            let cost = rng.between(1, 3 * period / (2 * count) + 1);
            flows.push(flow(period, jitter, cost));
        }
        (flows, limit)
    })
}

/// Those of them that have a length, with it.
fn small_with_length() -> impl Iterator<Item = (Vec<Flow>, u64)> {
    small_stations().filter_map(|(flows, limit)| {
        let length = station::brute_busy_length(&flows, limit)?;
        Some((flows, length))
    })
}

pub fn busy_length_is_the_least_of_every_length(report: &mut Report) {
    let mut none = 0;
    for (flows, limit) in small_stations() {
        let length = station::busy_length(&flows, limit);
        report.same("busy length", length, station::brute_busy_length(&flows, limit));
        none += u64::from(length.is_none());
    }
    report.holds("some have no length, some have one", (10_000..50_000).contains(&none));
    report.note(format!(", {none} stations without length"));
}

pub fn figure_is_the_greatest_of_every_span(report: &mut Report) {
    for (flows, length) in small_with_length() {
        let figure = station::figure(&flows, length);
        report.same("figure", figure, station::brute_figure(&flows, length));
    }
}

pub fn span_is_the_first_with_the_figure(report: &mut Report) {
    for (flows, length) in small_with_length() {
        let figure = i128::from(station::brute_figure(&flows, length));
        let first = (0..length).find(|&d| station::value_at(&flows, d) == figure);
        report.same("span", Some(station::span_of_figure(&flows, length)), first);
    }
}

pub fn stations_of_real_size(report: &mut Report) {
    for number in 0..40 {
        let rng = &mut Rng::part(2, number);
        let mut flows = Vec::new();
        for _ in 0..rng.between(1, 4) {
            let period = rng.between(12_500, 60_000);
            flows.push(flow(period, rng.below(2 * period), rng.between(84, period / 4)));
        }
        if let Some(l) = station::busy_length(&flows, 400_000) {
            report.same("length", Some(l), station::brute_busy_length(&flows, 400_000));
            report.same("figure", station::figure(&flows, l), station::brute_figure(&flows, l));
        }
    }
}

/// "the least L from 1 to 125,000,000"
pub fn busy_length_ends_at_its_limit(report: &mut Report) {
    let length = |jitter| station::busy_length(&[flow(12_501, jitter, 12_500)], LIMIT);
    report.same("at the limit", length(10_000), Some(LIMIT));
    report.same("past the limit", length(10_001), None);
    report.same("load above one", station::busy_length(&[flow(12_500, 0, 12_501)], LIMIT), None);
}

/// "Offered by itself, it refuses 4 ..., then 10", and "No flows: L = 1, figure 0."
pub fn station_by_itself_refuses(report: &mut Report) {
    let one = |period, jitter, cost| station::offered(&[flow(period, jitter, cost)]);
    report.same("no flows", station::offered(&[]), (0, 1, 0));
    report.same("1,025 flows", station::offered(&[flow(125_000_000, 0, 1); 1_025]), (4, 0, 0));
    let most = [flow(125_000_000, 0, 1); 1_024];
    report.same("1,024 flows", station::offered(&most), (0, 1_024, 1_024));
    for (what, seen) in [
        ("period 12,499", one(12_499, 0, 1)),
        ("period 125,000,001", one(125_000_001, 0, 1)),
        ("jitter 2,000,000,001", one(12_500, 2_000_000_001, 1)),
        ("cost 0", one(12_500, 0, 0)),
        ("cost 4,000,000,001", one(12_500, 0, 4_000_000_001)),
    ] {
        report.same(what, seen, (4, 0, 0));
    }
    report.same("period 125,000,000", one(125_000_000, 0, 1), (0, 1, 1));
    report.same("jitter 2,000,000,000", one(12_500, 2_000_000_000, 1).0, 0);
    report.same("cost 4,000,000,000", one(12_500, 0, 4_000_000_000), (10, 0, 0));
    report.same("no length", one(12_500, 0, 12_501), (10, 0, 0));
}
