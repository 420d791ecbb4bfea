//! Every profile gives what it is named for, and a difference is told.

use compare::account::{difference, Figures, REFUSALS};
use compare::profiles::{trace, PROFILES};
use independent::trace::{lines, run};

/// The figures of some traces of a profile.
fn figures(name: &str) -> Figures {
    let profile = PROFILES.iter().find(|profile| profile.name == name).expect("a profile");
    let mut figures = Figures::default();
    for seed in 0..4 {
        let trace = trace(profile, seed);
        figures.add(&trace, &run(&trace));
    }
    figures
}

#[test]
fn a_seed_gives_one_trace() {
    for profile in PROFILES {
        assert_eq!(trace(profile, 5), trace(profile, 5), "{}", profile.name);
    }
}

#[test]
fn every_refusal_that_a_trace_can_give_is_given() {
    let mut all = figures("every refusal");
    assert!(all.refused[13] > 10 && all.refused[12] > 10, "{all}");
    all.join(&figures("a full register"));
    assert!(REFUSALS.iter().all(|&refusal| all.refused[refusal] > 10), "{all}");
}

#[test]
fn each_number_of_a_set_is_wrong() {
    let figures = figures("wrong numbers");
    assert!(
        [3, 15, 16, 4, 17, 5].iter().all(|&refusal| figures.refused[refusal] > 50),
        "{figures}"
    );
    assert!(figures.bad == 0 && figures.lines > 8_000, "{figures}");
}

#[test]
fn whole_tables_are_let_go_and_filled() {
    assert_eq!(figures("chains of 1,024 let go at once").most, 1_024);
    let full = figures("full tables, numbers used again");
    assert!(full.refused[9] > 100 && full.freed > 0, "{full}");
}

#[test]
fn most_lines_of_the_shapes_are_accepted() {
    let shapes =
        ["rings", "doubly linked chains", "dense loops", "nested groups", "links set again"];
    for name in shapes.iter().chain(&["drafts outside a freeze", "mixed commands"]) {
        let figures = figures(name);
        let refused: usize = figures.refused.iter().sum();
        assert!(
            figures.bad == 0 && 3 * refused < figures.lines && figures.freed > 50,
            "{name}: {figures}"
        );
    }
}

#[test]
fn holds_reach_the_limit() {
    let figures = figures("holds up to 1,000");
    assert!(figures.refused[6] > 1 && figures.lines > 4_000, "{figures}");
}

#[test]
fn seats_meet() {
    for name in ["many seats", "shapes by many seats"] {
        let figures = figures(name);
        assert!(figures.refused[13] > 30 && figures.freed > 50, "{name}: {figures}");
    }
    let full = figures("a full register");
    assert!(full.refused[14] > 300 && full.refused[6] > 100, "{full}");
}

#[test]
fn near_misses_are_neither_all_bad_nor_all_right() {
    for name in ["near misses", "long lines"] {
        let figures = figures(name);
        assert!(
            figures.bad > figures.lines / 8 && figures.bad < figures.lines * 7 / 8,
            "{name}: {figures}"
        );
    }
    assert!(figures("random bytes").bad > 5_000);
}

#[test]
fn there_is_a_line_of_a_million_bytes() {
    let million =
        PROFILES.iter().find(|profile| profile.name.contains("million")).expect("a profile");
    assert!(lines(&trace(million, 1)).any(|line| line.len() >= 1_000_000));
}

#[test]
fn the_first_difference_is_told() {
    assert_eq!(difference(b"n\n", b"0 0 0\n= 1 0 0\n", b"0 0 0\n= 1 0 0\n"), None);
    let (line, account) =
        difference(b"n\nf", b"0 0 0\nx\n= 1 0 0\n", b"0 0 0\n= 1 0 0\n").expect("different");
    assert_eq!(line, 1);
    assert!(account.contains("line 2: f\n") && account.contains("= 1 0 0"), "{account}");
    assert!(difference(b"", b"= 0 0 0\n", b"= 0 0 0").is_some());
    assert!(difference(b"", b"= 0 0 0\n", b"= 0 0 0\n\n").is_some());
}
