//! What the build puts into the published `active.rs`, and that all else stays as published.

#[path = "../build/replacements.rs"]
mod replacements;

use replacements::{replace_once, station_text, REPLACEMENTS};

const PUBLISHED: &str = include_str!("../published/active.rs");

#[test]
fn taken_back_the_text_is_the_published_one() {
    for published_helpers in [false, true] {
        let mut text = station_text(PUBLISHED, published_helpers).expect("each text stands once");
        assert_ne!(text, PUBLISHED);
        for r in REPLACEMENTS.iter().rev() {
            if r.always || !published_helpers {
                text = replace_once(&text, r.ours, r.published).expect(r.name);
            }
        }
        assert_eq!(text, PUBLISHED);
    }
}

#[test]
fn a_text_that_does_not_stand_once_fails_by_name() {
    for r in &REPLACEMENTS {
        let missing = PUBLISHED.replace(r.published, "");
        let said = station_text(&missing, false).expect_err("it is missing");
        assert!(said.contains(" 0 times"), "{}", said);
        let twice = format!("{}{}", PUBLISHED, r.published);
        let said = station_text(&twice, false).expect_err("it stands twice");
        assert!(said.contains(r.name) && said.contains(" 2 times"), "{}", said);
    }
}

/// Only names of document 01's list are replaced, and what document 02 says of passive; what the oracle adds is put at the end.
#[test]
fn only_the_listed_names_are_replaced() {
    let listed = [
        "TokenRing",
        "new",
        "next_gap_poll",
        "wait_synchronization_pause",
        "check_slot_expired",
        "mark_tx",
        "transition_active_idle",
        "with_token_time",
        "return_if_done",
        "connectivity_state",
        "PollDone",
        "the end of the file",
        // document 02, P10
        "set_state",
        "PassiveIdle",
        "transition_passive_idle",
        "transition_listen_token",
        "poll_inner",
    ];
    for r in &REPLACEMENTS {
        let name = r.name.split("::").next().expect("a name");
        assert!(listed.contains(&name), "{}", r.name);
    }
    let end = REPLACEMENTS.iter().find(|r| r.name == "the end of the file").expect("the end");
    assert!(PUBLISHED.trim_end().ends_with(end.published.trim_end()));
    assert!(end.ours.starts_with(end.published));
}
