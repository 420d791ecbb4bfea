//! The pipe hands on every byte and takes every byte, and a program that fails is told.

use compare::program::{run, Pipe};

#[test]
fn a_program_that_writes_while_it_reads_gets_all_and_gives_all() {
    let trace: Vec<u8> = (0..1_000_000_u32).map(|i| (i % 251) as u8).collect();
    for pipe in [Pipe::Whole, Pipe::Slow { seed: 1 }, Pipe::Slow { seed: 2 }] {
        assert_eq!(run("cat", trace.clone(), pipe), Ok(trace.clone()));
    }
}

#[test]
fn a_program_that_reads_nothing_is_judged_by_its_output() {
    assert_eq!(run("true", vec![b'n'; 1_000_000], Pipe::Whole), Ok(Vec::new()));
}

#[test]
fn a_program_that_fails_gives_no_output() {
    assert!(run("false", Vec::new(), Pipe::Whole).is_err());
    assert!(run("no-such-program", Vec::new(), Pipe::Whole).is_err());
}

#[test]
fn a_command_may_have_words() {
    for command in ["head -c 3", "head\n-c\n3"] {
        assert_eq!(run(command, b"abcdef".to_vec(), Pipe::Whole), Ok(b"abc".to_vec()));
    }
}
