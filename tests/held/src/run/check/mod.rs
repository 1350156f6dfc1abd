// The program's own check, for which nothing has to be built but itself: each part is a line of
// `held check` and a test of its own (`cargo test`), named for what fails if it is broken.
mod cases;
#[cfg(test)]
mod examples;
mod fragments;
mod machines;
mod numbers;
mod sentences;
mod stations;
mod streams;
mod tables;
mod texts;
mod words;

use std::fmt::Debug;

/// What one part compared, and what differed.
#[derive(Default)]
pub struct Report {
    compared: u64,
    failed: u64,
    /// The first few of what differed.
    failures: Vec<String>,
    note: String,
}

impl Report {
    pub fn same<T: PartialEq + Debug>(&mut self, what: &str, seen: T, wanted: T) {
        self.compared += 1;
        if seen != wanted {
            self.failed += 1;
            if self.failures.len() < 5 {
                self.failures.push(format!("{what}: {seen:?}, wanted {wanted:?}"));
            }
        }
    }

    pub fn holds(&mut self, what: &str, fact: bool) {
        self.same(what, fact, true);
    }

    /// Words for the part's line.
    pub fn note(&mut self, text: String) {
        self.note = text;
    }
}

type Part = fn(&mut Report);

/// The parts by subject: the list for `held check`, and a test for each.
macro_rules! parts {
    ($($subject:ident: $($name:ident),+;)+) => {
        const PARTS: &[(&str, Part)] = &[$($((stringify!($name), $subject::$name)),+),+];

        #[cfg(test)]
        mod tests {
            $(mod $subject {
                use crate::run::check::{alone, $subject as parts};
                $(#[test] fn $name() { alone(parts::$name); })+
            })+
        }
    };
}

parts! {
    numbers: case_1_line_sizes, case_2_packets, case_3_length_and_queue, case_4_both_end_ticks,
        case_5_load_of_one, case_6_one_tick_of_jitter, case_7_one_turn_in_two, case_8_port,
        case_9_end_system, case_10_bytes, whole_case_bytes, whole_case_rows,
        best_counts_every_least_packet, whole_case_lent_result;
    fragments: counts_worked_by_hand, count_is_the_least_that_holds_the_message,
        one_packet_exactly_up_to_lmax_less_47, count_never_falls_as_messages_grow,
        never_more_packets_than_by_the_former_rule, fragments_add_to_message_and_one_header,
        first_fragment_alone_has_the_udp_header, fragments_before_the_last_are_multiples_of_8,
        full_fragment_is_the_longest_multiple_of_8, last_fragment_has_at_most_s,
        fragments_are_what_is_cut_off_until_it_fits, lines_are_84_to_20_and_lmax,
        packet_alone_takes_the_line_of_its_fragment, lines_of_fragments_by_hand,
        longest_message_is_a_byte_short_of_a_packet_more, written_counts_stand_in_their_places;
    stations: busy_length_is_the_least_of_every_length, figure_is_the_greatest_of_every_span,
        span_is_the_first_with_the_figure, stations_of_real_size, busy_length_ends_at_its_limit,
        station_by_itself_refuses;
    tables: fields_stand_most_significant_bit_first, fields_read_back,
        fields_fill_their_records, gap_codes_double, numbers_written_read_back,
        unpacked_and_written_is_the_same_table, short_list_is_11_and_all_zero,
        refused_table_leaves_lists_zero, short_room_is_11_and_all_zero,
        bent_number_is_refused_where_it_stands, what_the_writer_takes_reads_back,
        misshapen_lists_are_2, header_list_begins_with_the_version,
        header_list_has_five_numbers, wrong_version_is_2;
    cases: too_few_bytes_are_1, made_for_2, made_for_3, made_for_4, made_for_5, made_for_6,
        made_for_7, made_for_8, made_for_9, made_for_10, made_to_be_accepted, greatest_counts,
        two_cases_at_once, heavy_tables_pass_1_to_8, damaged_tables_end;
    streams: stream_reads_back, answers_leave_no_lent_place, cut_stream_is_seen,
        gate_stream_has_every_answer, gate_stream_has_every_case, gate_stream_has_every_size,
        gate_stream_has_every_short_list, gate_stream_has_every_bend,
        gate_stream_has_wrong_versions;
    sentences: first_word_that_is_none, missing_field_is_named, word_that_is_no_number_is_shown,
        kind_and_parent_have_their_words, word_too_many_is_shown, line_too_many_is_named,
        number_out_of_range_is_shown, number_at_its_limit_packs, pair_out_of_order_is_named,
        text_without_delays_or_too_long;
    words: word_is_shown_as_the_page_says, blanks_and_comments_change_nothing,
        no_other_byte_ends_a_word, first_wrong_line_is_named,
        refusals_come_in_the_order_of_the_table;
    texts: printed_text_packs_to_the_same_bytes, text_in_another_dress_packs_to_the_same_bytes,
        whole_case_is_printed_as_the_page_says, bad_tables_are_printed_as_their_refusal,
        edges_give_what_they_are_made_for, gate_texts_have_every_sentence, spoilt_texts_end,
        bent_number_is_named_by_its_line;
    machines: least_run_takes_its_best_figure, second_packet_waits_one_gap,
        last_fragment_takes_its_own_line, full_fragment_takes_59_and_c, sub_links_take_turns,
        same_tick_order_is_kept, events_and_ticks_agree, unlawful_plans_are_seen,
        runs_keep_to_their_rows, wrong_rows_are_seen;
}

/// Runs one part and gives its report.
fn run(part: Part) -> Report {
    let mut report = Report::default();
    part(&mut report);
    let some = report.compared > 0;
    report.holds("a part compares something", some);
    report
}

/// All parts: a line for each and for what differed, and how much did.
pub fn check() -> (Vec<String>, u64) {
    let mut lines = Vec::new();
    let mut failed = 0;
    for (name, part) in PARTS {
        let report = run(*part);
        let name = name.replace('_', " ");
        lines.push(format!("{name}: {} comparisons{}", report.compared - 1, report.note));
        lines.extend(report.failures.iter().map(|text| format!("FAILURE {text}")));
        failed += report.failed;
    }
    lines.push(format!("{} parts, {failed} failures", PARTS.len()));
    (lines, failed)
}

/// One part as a test.
#[cfg(test)]
fn alone(part: Part) {
    let report = run(part);
    assert!(report.failed == 0, "{} failures\n{}", report.failed, report.failures.join("\n"));
}
