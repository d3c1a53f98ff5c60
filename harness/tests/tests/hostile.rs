//! Hostile calls find the builders that would be sent back, and nothing else.

use calls::{Calls, InC, Library, Reference};
use tests::broken::{self, Broken};
use tests::{run_hostile, Face, Report, Settings};

fn hostile(calls: &(dyn Calls + Sync), kind: &str, count: u64) -> Report {
    let settings = Settings {
        seed: 5,
        first: 0,
        count,
        kind: kind.into(),
    };
    let name = "it";
    run_hostile(&[Face { name, calls }], &settings)
}

/// A builder with this one call replaced is sent back.
macro_rules! sent_back {
    ($call:ident: $function:ident, $kind:literal) => {
        sent_back!($call: $function, $kind, 400);
    };
    ($call:ident: $function:ident, $kind:literal, $count:literal) => {
        let builder = Broken {
            $call: broken::$function,
            ..Broken::default()
        };
        assert!(!hostile(&builder, $kind, $count).failures.is_empty());
    };
}

#[test]
fn right_builders_are_not_sent_back() {
    let (in_c, library) = (InC::default(), Library::default());
    for builder in [&Reference as &(dyn Calls + Sync), &library, &in_c] {
        assert!(hostile(builder, "hostile/", 100).failures.is_empty());
    }
}

#[test]
fn numbers_cut_to_32_bits() {
    sent_back!(build: cut_ports, "hostile/build", 4_000);
    sent_back!(inspect: cut_slots, "hostile/inspect", 4_000);
    sent_back!(slot_view: cut_view, "hostile/view", 4_000);
    sent_back!(service_count: cut_run, "hostile/count", 4_000);
    sent_back!(service_count: cut_flow, "hostile/count", 12_000);
    sent_back!(service_count: cut_lead, "hostile/count", 4_000);
    sent_back!(depth: sixteen_bit_port, "hostile/depth", 12_000);
    sent_back!(turn: cut_side, "hostile/turn", 4_000);
}

#[test]
fn other_sides_looked_at() {
    sent_back!(turn: turn_of_other_side, "hostile/turn");
    sent_back!(inspect: inspect_of_other_side, "hostile/inspect");
    sent_back!(service_count: count_of_other_side, "hostile/count");
    sent_back!(turn: turn_by_1_alone, "hostile/turn");
    sent_back!(inspect: inspect_by_1_alone, "hostile/inspect");
    sent_back!(service_count: count_by_1_alone, "hostile/count");
    sent_back!(service_count: input_by_place, "hostile/count");
    sent_back!(service_count: output_by_flows, "hostile/count", 4_000);
}

#[test]
fn turns_to_something_else() {
    sent_back!(turn: other_places_let_through, "hostile/turn", 4_000);
    sent_back!(turn: later_entry_wins, "hostile/turn", 4_000);
    sent_back!(turn: above_turned_to_idle, "hostile/turn");
    sent_back!(turn: turned_up_to_the_fault, "hostile/turn");
    sent_back!(turn: idle_places_left, "hostile/turn");
}

#[test]
fn second_buffers_of_other_lengths() {
    sent_back!(turn: entries_before_length, "hostile/turn");
    sent_back!(turn: second_before_first, "hostile/turn");
    sent_back!(turn: longer_second, "hostile/turn");
}

#[test]
fn leads_out_of_the_air() {
    sent_back!(service_count: lead_turned_round, "hostile/count");
    sent_back!(service_count: load_of_the_run, "hostile/count");
    sent_back!(service_count: lead_of_short_runs, "hostile/count");
}

#[test]
fn depths_out_of_the_air() {
    sent_back!(depth: one_end_of_a_run, "hostile/depth");
    sent_back!(depth: rounded_up, "hostile/depth");
    sent_back!(depth: class_before_loads, "hostile/depth", 4_000);
    sent_back!(depth: overloads_elsewhere, "hostile/depth");
    sent_back!(depth: unknown_flow_without_cells, "hostile/depth");
}

#[test]
fn odd_counts_miscounted() {
    sent_back!(build: one_slot_counted, "hostile/build");
    sent_back!(build: second_halves_left_out, "hostile/build");
    sent_back!(build: even_counts_counted, "hostile/build");
    sent_back!(build: none_settled, "hostile/build");
}

#[test]
fn lengths_not_looked_at() {
    sent_back!(admit: overlong_list, "hostile/admit");
    sent_back!(admit: rest_left_out, "hostile/admit");
    sent_back!(build: first_flows_built, "hostile/build");
}

#[test]
fn ports_not_looked_at() {
    sent_back!(admit: eight_bit_ports, "hostile/admit", 4_000);
}

#[test]
fn links_not_looked_at() {
    sent_back!(admit: link_0_accepted, "hostile/admit");
    sent_back!(build: links_not_first, "hostile/build");
}

#[test]
fn other_limits_looked_at() {
    sent_back!(admit: limits_of_next_output, "hostile/admit");
    sent_back!(admit: first_limits_only, "hostile/admit");
    sent_back!(admit: highest_link, "hostile/admit", 4_000);
    sent_back!(admit: links_before_outputs, "hostile/admit");
}

#[test]
fn entries_not_looked_at() {
    sent_back!(inspect: other_inputs_let_through, "hostile/inspect");
    sent_back!(inspect: above_is_idle, "hostile/inspect");
    sent_back!(inspect: no_links, "hostile/inspect", 4_000);
    sent_back!(service_count: output_by_place, "hostile/count");
    sent_back!(service_count: flow_by_place, "hostile/count");
    sent_back!(service_count: flows_of_input_only, "hostile/count");
    sent_back!(service_count: unknown_flow_is_idle, "hostile/count");
}

#[test]
fn an_entry_written_on_refusal() {
    sent_back!(build: marks_refused_frame, "hostile/build");
}

#[test]
fn an_entry_written_outside_in_c() {
    let report = hostile(&InC::writing_outside(), "hostile/build", 4);
    assert_eq!(report.failures.len(), 4);
    let mut failures = report.failures.values();
    assert!(failures.all(|failure| failure.contains("bytes around the frame")));
}

#[test]
fn a_whole_run_must_come_upon_every_answer() {
    let report = hostile(&Reference, "", 1);
    assert!(report.failures.is_empty());
    assert!(report.never_hit.contains(&"it count refusal 13".into()));
    let by_outputs = "it turn by outputs refusal 15";
    assert!(report.never_hit.contains(&by_outputs.into()));
}
