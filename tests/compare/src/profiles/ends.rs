//! Profiles of line ends: long lines, and traces without a last byte 10.

use super::steps::step;
use crate::author::Author;

/// A line of the given length that begins like a right one.
fn long(author: &mut Author, length: usize) {
    let head: &[u8] = author
        .random
        .pick(&[b"n", b"n ", b"f 0", b"f 0 ", b"s 0 0 -", b"l ", b"f 0000", b"", b"\0"]);
    let fill = author.random.pick(b"0 n-\r\0");
    let mut line = head.to_vec();
    line.resize(length.max(head.len()), fill);
    if author.random.once_in(2) {
        line.extend(author.random.pick(&[b" n", b" 0", b"-0"]));
    }
    author.write(&line);
}

/// Lines about 64 bytes long and about the sizes that buffers have.
pub fn long_lines(author: &mut Author) {
    while author.lines < 400 {
        step(author, 10);
        let near = author.random.pick(&[19, 64, 64, 64, 128, 256, 512, 1_024, 4_096, 8_192]);
        let length = author.random.from(near - 5, near + 5);
        long(author, length);
        step(author, 10);
    }
    long(author, 65_536);
    (0..20).for_each(|_| step(author, 10));
}

/// A line of a million bytes among right ones.
pub fn million(author: &mut Author) {
    (0..10).for_each(|_| step(author, 10));
    long(author, 1_000_000);
    (0..10).for_each(|_| step(author, 10));
}

/// A short trace, from no bytes on, that is cut off anywhere.
pub fn no_end(author: &mut Author) {
    for _ in 0..author.random.below(12) {
        step(author, 4);
    }
    if author.random.once_in(4) {
        let length = author.random.from(60, 70);
        long(author, length);
    }
    let kept = author.trace.len() - author.random.below(4).min(author.trace.len());
    author.trace.truncate(kept);
}
