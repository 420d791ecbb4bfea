//! Which lines are bad, what a trace's end is, and the lent trace.

use independent::line::{read, Command};
use independent::tables::NONE;
use independent::trace::{lent, lines, run};

#[test]
fn lines_that_are_not_bad() {
    let good: &[(&str, Command)] = &[
        ("n", Command::New),
        ("s 1 2 3", Command::Set(1, 2, 3)),
        ("s 00001 00003 -", Command::Set(1, 3, NONE)),
        ("s 65535 65535 65535", Command::Set(NONE, NONE, NONE)),
        ("f 0", Command::Freeze(0, 0)),
        ("a 00000", Command::Acquire(0, 0)),
        ("r 1023", Command::Release(1023, 0)),
        ("f 0 0", Command::Freeze(0, 0)),
        ("f 1 31", Command::Freeze(1, 31)),
        ("a 2 00032", Command::Acquire(2, 32)),
        ("r 65535 65535", Command::Release(65535, 65535)),
        ("b 01024", Command::Bin(1024)),
        ("l 65535", Command::Look(65535)),
    ];
    for (line, command) in good {
        assert_eq!(read(line.as_bytes()), Some(*command), "{line}");
    }
}

#[test]
fn bad_lines() {
    let bad: &[&[u8]] = &[
        b"",
        b" ",
        b"n ",
        b" n",
        b"nn",
        b"n 0",
        b"N",
        b"n\r",
        b"\0",
        b"\xff",
        b"x",
        b"=",
        b"-",
        b"f",
        b"f ",
        b"f0",
        b"f  0",
        b"f 0 ",
        b" f 0",
        b"f 0 0 0",
        b"f 0 0 ",
        b"f 0  0",
        b"f 0 -",
        b"a 0 65536",
        b"a 0 000000",
        b"r 0 x",
        b"b 0 0",
        b"l 0 0",
        b"f\t0",
        b"f -",
        b"f +1",
        b"f -1",
        b"f 0x",
        b"f 1.",
        b"f 000001",
        b"f 65536",
        b"f 99999",
        b"f 100000",
        b"f 0\r",
        b"f 0\0",
        b"l -",
        b"s",
        b"s 0",
        b"s 0 0",
        b"s 0 0 ",
        b"s 0 0 0 ",
        b"s 0 0 0 0",
        b"s  0 0 0",
        b"s 0  0 0",
        b"s 0 0  0",
        b"s - 0 0",
        b"s 0 - 0",
        b"s 0 0 --",
        b"s 0 0 -1",
        b"s 0 0 65536",
        b"s 0 65536 0",
        b"s 0 0 000000",
        b"fr 0",
        b"ff 0",
        b"f\n0",
        b"f \xb2",
    ];
    for line in bad {
        assert_eq!(read(line), None, "{}", line.escape_ascii());
    }
    assert_eq!(read(&[b'0'; 65]), None);
    assert_eq!(read(&[b" ".repeat(63), b"n".to_vec()].concat()), None);
}

#[test]
fn the_last_line_counts_if_it_has_a_byte() {
    let ends: &[(&[u8], usize, &[u8])] = &[
        (b"", 0, b"= 0 0 0\n"),
        (b"\n", 1, b"x\n= 0 0 0\n"),
        (b"n", 1, b"0 0 0\n= 1 0 0\n"),
        (b"n\n", 1, b"0 0 0\n= 1 0 0\n"),
        (b"n\n\n", 2, b"0 0 0\nx\n= 1 0 0\n"),
        (b"n\nf 0\nf", 3, b"0 0 0\n0 - 0\nx\n= 0 1 1\n"),
        (b"n\r\n", 1, b"x\n= 0 0 0\n"),
    ];
    for (trace, count, output) in ends {
        assert_eq!(lines(trace).count(), *count);
        assert_eq!(&run(trace), output, "{}", trace.escape_ascii());
    }
}

#[test]
fn a_room_that_fits_is_larger_or_is_short() {
    let mut room = [7; 12];
    assert_eq!(lent(b"", &mut room[..8]), 8);
    assert_eq!(&room, b"= 0 0 0\n\x07\x07\x07\x07");
    assert_eq!(lent(b"", &mut room), 8);
    assert_eq!(&room, b"= 0 0 0\n\0\0\0\0");
    room.fill(7);
    assert_eq!(lent(b"", &mut room[..7]), (1 << 63) + 11);
    assert_eq!(room, [0, 0, 0, 0, 0, 0, 0, 7, 7, 7, 7, 7]);
    assert_eq!(lent(b"", &mut []), (1 << 63) + 11);
}

#[test]
fn a_trace_that_is_long_leaves_the_room() {
    let mut room = vec![7; 3 * 65_536];
    assert_eq!(lent(&[b'\n'; 65_537], &mut room), (1 << 63) + 10);
    assert_eq!(lent(&[b'\n'; 65_537], &mut []), (1 << 63) + 10);
    assert!(room.iter().all(|&byte| byte == 7));
    assert_eq!(lent(&[b'\n'; 65_536], &mut room), 2 * 65_536 + 8);
}
