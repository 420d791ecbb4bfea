//! Profiles of bad lines: near misses and random bytes.

use super::steps::step;
use crate::author::Author;

/// The bytes that the lines of a trace are made of, and some that look like them.
const BYTES: &[u8] = b"nsfarbl 0123456789-NSFARBL+.,x=\t\r\0\x7f\x80\xb2\xff";

/// Lines that are nearly, or just, not bad.
#[rustfmt::skip]
const NEARLY: &[&str] = &[
    "", " ", "n ", " n", "nn", "n 0", "f", "f ", "f0", "f  0", "f 0 ", "f\t0", "f -", "f +1",
    "f 0 0", "f 0 0 ", "f 0  0", "f 0 0 0", "f 0 31", "f 0 32", "a 0 00000", "a 0 000000", "a 0 -",
    "a 0 65535", "a 0 65536", "r 0 1", "r 0 x", "r 65535 65535", "b 0 0", "l 0 0", "f 000000", "f 000001", "f 00001", "f 65535", "f 65536", "f 99999", "f 100000",
    "f 4294967296", "a 65536", "r 65536", "b 65536", "l 65536", "l 1024", "l 65535", "l -",
    "s 0 0", "s 0 0 ", "s 0 0 -", "s 0 0 - ", "s 0 0 --", "s 0 0 -1", "s - 0 0", "s 0 - 0",
    "s 0 0 0 0", "s  0 0 0", "s 0  0 0", "s 0 0  0", "s 0 0 65535", "s 0 0 65536", "s 0 65535 0",
    "s 0 65536 0", "s 65536 0 0", "s 0 4 0", "s 00000 00000 00000", "s 0 0 000000", "fr 0", "n\r",
    "f 0\r", "0", "-", "=", "= 0 0 0", "x", "N", "q 0",
];

/// The last line written, taken back.
fn take_back(author: &mut Author) -> Vec<u8> {
    author.trace.pop();
    let start = author.trace.iter().rposition(|&byte| byte == b'\n').map_or(0, |end| end + 1);
    author.trace.split_off(start)
}

/// A line with one byte put in, taken out or changed.
fn spoil(author: &mut Author, mut line: Vec<u8>) -> Vec<u8> {
    let byte = author.random.pick(BYTES);
    let at = author.random.below(line.len().max(1));
    match author.random.below(4) {
        0 => line.insert(at, byte),
        1 => line.push(byte),
        2 if !line.is_empty() => drop(line.remove(at)),
        _ => line.splice(at..line.len().min(at + 1), [byte]).for_each(drop),
    }
    line
}

/// Lines with one byte wrong, among right ones and lines that are nearly right.
pub fn near_misses(author: &mut Author) {
    while author.lines < 1_500 {
        step(author, 10);
        match author.random.below(3) {
            0 => {
                let line = author.random.pick(NEARLY);
                author.write(line.as_bytes());
            }
            1 => {
                let pieces = author.pieces.clone();
                step(author, 10);
                author.pieces = pieces;
                let line = take_back(author);
                let line = spoil(author, line);
                author.write(&line);
            }
            _ => step(author, 10),
        }
    }
}

/// Random bytes: all of them, or those of a trace, with byte 10 now and then.
pub fn random_bytes(author: &mut Author) {
    let length = author.random.from(1, 24);
    (0..5).for_each(|_| step(author, 5));
    while author.lines < 1_500 {
        let all = author.random.once_in(3);
        let mut line = Vec::new();
        for _ in 0..author.random.below(length) {
            let byte = author.random.bits() as u8;
            line.push(if all && byte != b'\n' { byte } else { author.random.pick(BYTES) });
        }
        author.write(&line);
    }
}
