//! SIZE, UNSOUND, and what becomes of the list and the work area.

use independent::calls::{self, Answer, Check};
use independent::tables::{Tables, LINE, LINES, NONE};

/// Draft 0 names the frozen loop of 1 and 2, which seats 4 and 6 hold at 2; 3 is free. List and
/// work are filled.
fn loop_of_two() -> Tables {
    let mut tables = Tables::empty(4);
    tables.states = vec![1, 2, 2, 0];
    tables.links[0] = 1;
    tables.links[4] = 2;
    tables.links[8] = 1;
    tables.leaders = vec![NONE, 1, 1, NONE];
    tables.holds = vec![0, 0, 3, 0];
    tables.counts = vec![0, 4, 0, 0];
    tables.register[..6].copy_from_slice(&[4, 2, 2, 6, 2, 1]);
    tables.list = vec![9; 5];
    tables.work = vec![9; 33];
    tables
}

fn check(tables: &mut Tables) -> Check {
    let (store, _, work) = tables.lend();
    calls::check(&store, work)
}

fn new(tables: &mut Tables) -> Answer {
    let (mut store, list, work) = tables.lend();
    calls::new(&mut store, list, work)
}

/// A change to the tables, by name.
type Change = (&'static str, fn(&mut Tables));

const DONE: Answer = Answer { refusal: 0, value: NONE, freed: 0 };
const SIZE: Answer = Answer { refusal: 1, value: NONE, freed: 0 };
const UNSOUND: Answer = Answer { refusal: 2, value: NONE, freed: 0 };

#[test]
fn each_spoiled_entry_is_seen() {
    let spoils: &[Change] = &[
        ("state 3", |t| t.states[3] = 3),
        ("a free piece with a link", |t| t.links[12] = 0),
        ("a free piece with a leader", |t| t.leaders[3] = 3),
        ("a free piece with a hold", |t| t.holds[3] = 1),
        ("a free piece with a count", |t| t.counts[3] = 1),
        ("a draft with a leader", |t| t.leaders[0] = 0),
        ("a draft with a hold", |t| t.holds[0] = 1),
        ("a draft with a count", |t| t.counts[0] = 1),
        ("a link to a free piece", |t| t.links[1] = 3),
        ("a link of N", |t| t.links[1] = 4),
        ("a frozen piece linking to a draft", |t| t.links[5] = 0),
        ("1,001 holds", |t| {
            (t.holds[2], t.counts[1], t.register[2]) = (1_001, 1_002, 1_000);
        }),
        ("a leader that is a member but not the lowest", |t| {
            (t.leaders[1], t.leaders[2]) = (2, 2);
            (t.counts[1], t.counts[2]) = (0, 4);
        }),
        ("a loop split", |t| (t.leaders[2], t.counts[1], t.counts[2]) = (2, 2, 4)),
        ("a count one too high", |t| t.counts[1] = 5),
        ("a count one too low", |t| t.counts[1] = 3),
        ("a count at a piece that leads nothing", |t| t.counts[2] = 1),
        ("a loop kept by nobody", |t| {
            (t.links[0], t.holds[2], t.counts[1]) = (NONE, 0, 0);
            t.register.fill(0);
        }),
        ("a sum one too high", |t| t.register[2] = 3),
        ("a sum one too low", |t| t.register[2] = 1),
        ("lines in the other order", |t| t.register[..6].copy_from_slice(&[6, 2, 1, 4, 2, 2])),
        ("a pair twice", |t| t.register[3] = 4),
        ("a zero line before", |t| t.register.rotate_right(3)),
        ("a zero line between", |t| {
            t.register.copy_within(3..6, 6);
            t.register[3..6].fill(0);
        }),
        ("a line of number 0", |t| t.register[6..9].copy_from_slice(&[7, 2, 0])),
        ("a seat behind the last line", |t| t.register[6] = 1),
        ("something in the last line", |t| t.register[3_070] = 1),
        ("a number in the last line", |t| t.register[3_069..].copy_from_slice(&[31, 2, 1])),
        ("seat 32", |t| t.register[3] = 32),
        ("piece N", |t| t.register[6..9].copy_from_slice(&[6, 4, 1])),
        ("a line that names a draft", |t| t.register[6..9].copy_from_slice(&[7, 0, 1])),
        ("a line that names a free number", |t| t.register[6..9].copy_from_slice(&[7, 3, 1])),
        ("a number of 1,001", |t| {
            t.register[..6].copy_from_slice(&[4, 2, 1_001, 0, 0, 0]);
            (t.holds[2], t.counts[1]) = (1_001, 1_002);
        }),
        ("a sum that wraps around", |t| (t.register[2], t.register[5]) = (65_535, 4)),
    ];
    assert_eq!(check(&mut loop_of_two()), Check { refusal: 0, yes: true });
    for (name, spoil) in spoils {
        let mut tables = loop_of_two();
        spoil(&mut tables);
        let mut expected = tables.clone();
        expected.work[..32].fill(0);
        assert_eq!(check(&mut tables), Check { refusal: 0, yes: false }, "{name}");
        assert_eq!(new(&mut tables), UNSOUND, "{name}");
        assert_eq!(tables, expected, "{name}");
    }
}

#[test]
fn two_groups_under_one_leader() {
    let mut tables = Tables::empty(2);
    tables.states = vec![2, 2];
    tables.leaders = vec![0, 1];
    tables.holds = vec![1, 1];
    tables.counts = vec![1, 1];
    tables.register[..6].copy_from_slice(&[0, 0, 1, 0, 1, 1]);
    assert!(check(&mut tables).yes);
    (tables.leaders[1], tables.counts) = (0, vec![2, 0]);
    assert!(!check(&mut tables).yes);
}

#[test]
fn wrong_sizes_change_nothing() {
    let wrongs: &[Change] = &[
        ("N of 0", |t| t.n = 0),
        ("N of 1,025", |t| t.n = 1_025),
        ("N as large as can be", |t| t.n = usize::MAX),
        ("states short", |t| t.states.truncate(3)),
        ("states long", |t| t.states.push(0)),
        ("links short", |t| t.links.truncate(15)),
        ("links long", |t| t.links.push(NONE)),
        ("leaders short", |t| t.leaders.truncate(3)),
        ("leaders long", |t| t.leaders.push(NONE)),
        ("holds short", |t| t.holds.truncate(3)),
        ("holds long", |t| t.holds.push(0)),
        ("counts short", |t| t.counts.truncate(3)),
        ("counts long", |t| t.counts.push(0)),
        ("register short", |t| t.register.truncate(LINE * LINES - 1)),
        ("register long", |t| t.register.push(0)),
        ("register empty", |t| t.register.clear()),
        ("into short", |t| t.into.truncate(3)),
        ("into long", |t| t.into.push(0)),
        ("into empty", |t| t.into.clear()),
        ("list short", |t| t.list.truncate(3)),
        ("work short", |t| t.work.truncate(31)),
    ];
    for (name, wrong) in wrongs {
        let mut tables = loop_of_two();
        wrong(&mut tables);
        let expected = tables.clone();
        assert_eq!(new(&mut tables), SIZE, "{name}");
        assert_eq!(tables, expected, "{name}");
    }
}

#[test]
fn look_and_check_take_no_list_and_start_takes_no_work() {
    let mut tables = loop_of_two();
    tables.list.clear();
    assert!(check(&mut tables).yes);
    let (store, _, work) = tables.lend();
    assert_eq!(calls::look(&store, work, 2).seen.count, 4);
    tables.work.clear();
    tables.into.fill(9);
    assert_eq!(calls::start(&mut tables.lend().0), Answer { refusal: 0, value: NONE, freed: 0 });
    assert_eq!((&tables.states, &tables.links), (&vec![0; 4], &vec![NONE; 16]));
    assert_eq!((tables.register, tables.into), (vec![0; LINE * LINES], vec![0; 4]));
}

#[test]
fn the_list_is_written_from_entry_0_and_later_entries_stay() {
    let mut tables = loop_of_two();
    let (mut store, list, work) = tables.lend();
    for seat in [4, 6, 4] {
        assert_eq!(calls::release(&mut store, list, work, 2, seat), DONE);
    }
    assert_eq!(calls::bin(&mut store, list, work, 0).freed, 2);
    let mut expected = Tables::empty(4);
    expected.list = vec![1, 2, 9, 9, 9];
    expected.work = [vec![0; 32], vec![9]].concat();
    assert_eq!(tables, expected);
}
