//! Traces by which is seen how the cost of a command grows: with what it touches, and with what else
//! is in the store.

/// How many times a part is needed for the whole.
pub fn times(whole: usize, part: usize) -> usize {
    (whole + part - 1) / part
}

/// Chains of that many pieces, each frozen and let go at once.
pub fn chains(size: usize, count: usize) -> Vec<u8> {
    let mut text = vec!["n".to_string(); size];
    text.extend((1..size).map(|p| format!("s {} 0 {p}", p - 1)));
    text.extend(["f 0".to_string(), "r 0".to_string()]);
    (text.join("\n") + "\n").into_bytes().repeat(times(count, text.len()))
}

/// Lines over and over beside live pieces, by name: 0 to 7 are free before them and after, so that no
/// new looks far for a free number; 8 is a draft that others name.
const BESIDE: &[(&str, &[&str])] = &[
    ("pairs frozen", &["n", "n", "s 0 0 1", "s 1 0 0", "f 0", "r 0"]),
    ("chains of 4 frozen", &["n", "n", "n", "n", "s 0 0 1", "s 1 0 2", "s 2 0 3", "f 0", "r 0"]),
    ("drafts binned", &["n", "s 0 0 8", "b 0"]),
    ("bins refused", &["b 8"]),
];

/// The lines of that name over and over, beside so many live pieces from 8 on: half of them drafts
/// that name their neighbours and a frozen piece, half a chain that is frozen by one hold.
pub fn beside(name: &str, live: usize, count: usize) -> Option<Vec<u8>> {
    let (_, turn) = BESIDE.iter().find(|(beside, _)| *beside == name)?;
    let (first, frozen, end) = (8, 8 + live / 2, 8 + live);
    let mut text = vec!["n".to_string(); end];
    text.extend((frozen + 1..end).map(|p| format!("s {} 0 {p}", p - 1)));
    text.push(format!("f {frozen}"));
    for p in first..frozen {
        let (next, before) = (p + 1, p + frozen - first - 1);
        let [next, before] = [next, before].map(|q| first + (q - first) % (frozen - first));
        text.push(format!("s {p} 0 {next}"));
        text.push(format!("s {p} 1 {before}"));
        text.push(format!("s {p} 3 {}", p + live / 2));
    }
    text.extend((0..first).map(|p| format!("b {p}")));
    let turn = turn.join("\n") + "\n";
    let turns = times(count, turn.lines().count());
    Some(((text.join("\n") + "\n") + &turn.repeat(turns)).into_bytes())
}
