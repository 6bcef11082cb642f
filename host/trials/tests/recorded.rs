//! The recorded answers of crate hgvs, replayed through the boundary.

use std::fs;

use trials::recorded;

fn file() -> Vec<u8> {
    fs::read(concat!(env!("CARGO_MANIFEST_DIR"), "/../../crates/vectors/stdin")).unwrap()
}

#[test]
fn the_port_answers_as_recorded() {
    assert!(recorded::replay(&file()).unwrap() > 4_000);
}

#[test]
fn a_worklist_answers_as_recorded() {
    assert!(recorded::replay_lists(&file()).unwrap() > 80);
}

#[test]
fn the_join_answers_as_recorded() {
    assert!(recorded::replay_joins(&file()).unwrap() > 300);
}

#[test]
fn a_log_answers_as_recorded() {
    assert!(recorded::replay_logs(&file()).unwrap() > 3_000);
}
