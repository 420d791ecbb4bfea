"""The wrong versions: a name, and edits (file, text, text in its place) of the independent program."""

# A table of links that a command leaves behind, and a bin that is LINKED by it; for the one store of a trace.
LEFT = [
    ("commands.rs", "use crate::register::seated;\n",
     "use crate::register::seated;\nstatic LEFT: std::sync::Mutex<[bool; 1024]> = std::sync::Mutex::new([false; 1024]);\n"),
    ("commands.rs", "any(|q| self.named(q).any(|named| named == p)) {",
     "any(|q| self.named(q).any(|named| named == p)) || LEFT.lock().unwrap()[p] {"),
]

# Wrong in what a trace shows: noticed by `compare`.
BY_TRACE = [
    ("the count forgets drafts outside", [
        ("pieces.rs", "filter(|&&p| !inside[p])", "filter(|&&p| !inside[p] && self.states[p] == FROZEN)")]),
    ("two places that name one piece count once", [
        ("pieces.rs", "        namers\n", "        namers.iter_mut().for_each(|all| all.dedup());\n        namers\n")]),
    ("a group is all that its piece reaches", [
        ("pieces.rs", "reached[q] && reaching[q]", "reached[q]")]),
    ("drafts keep nothing", [
        ("pieces.rs", "self.in_state(DRAFT).chain(held).collect()", "self.in_state(0).chain(held).collect()")]),
    ("only the first group is freed", [
        ("commands.rs", "filter(|&p| !kept[p]).collect();",
         "filter(|&p| !kept[p]).collect();\n"
         "        let freed = freed.first().map_or(Vec::new(), |&p| self.group(p, &self.namers()));")]),
    ("the old link of set is removed before the other counts", [
        ("commands.rs", "        self.links[p][usize::from(k)] = t;\n        self.settle()",
         "        self.links[p][usize::from(k)] = NONE;\n        let answer = self.settle();\n"
         "        self.links[p][usize::from(k)] = t;\n        answer")]),
    ("set refuses a frozen piece before a free target", [
        ("commands.rs", "        self.live(p)?;\n", "        self.live_in(DRAFT, p)?;\n")]),
    ("a wrong target is given before a wrong place", [
        ("commands.rs", "        if usize::from(k) >= LINKS {",
         "        if target.map_or(false, |t| t >= self.n()) {\n            return Err(Refusal::Target);\n        }\n"
         "        if usize::from(k) >= LINKS {")]),
    ("a wrong place is given before a wrong piece", [
        ("commands.rs", "        if usize::from(p) >= self.n() {",
         "        if usize::from(k) >= LINKS {\n            return Err(Refusal::Place);\n        }\n"
         "        if usize::from(p) >= self.n() {")]),
    ("a free target is given before a free piece", [
        ("commands.rs", "        self.live(p)?;\n        if target",
         "        if target.map_or(false, |t| self.states[t] == FREE) {\n            return Err(Refusal::FreeTarget);\n        }\n"
         "        self.live(p)?;\n        if target")]),
    ("a free target is given as a free piece", [
        ("commands.rs", "return Err(Refusal::FreeTarget)", "return Err(Refusal::Free)")]),
    ("a target of none is a wrong one", [
        ("commands.rs", "(t != NONE).then_some(usize::from(t))", "Some(usize::from(t))")]),
    ("freeze of a frozen piece gives no hold", [
        ("commands.rs", "let held = self.line(start, seat).is_some();", "let held = true;")]),
    ("a second hand-in counts", [
        ("commands.rs", "let held = self.line(start, seat).is_some();", "let held = false;")]),
    ("a second hand-in is refused by LIMIT, though no hold is added", [
        ("commands.rs", "            let held = self.line(start, seat).is_some();\n",
         "            if self.holds()[start] == u32::from(HOLDS) {\n                return Err(Refusal::Limit);\n            }\n"
         "            let held = self.line(start, seat).is_some();\n")]),
    ("another seat's hold makes a hand-in the second", [
        ("commands.rs", "let held = self.line(start, seat).is_some();", "let held = self.holds()[start] > 0;")]),
    ("a hold on another member makes a hand-in the second", [
        ("commands.rs", "let held = self.line(start, seat).is_some();",
         "let held = self.group(start, &self.namers()).iter().any(|&q| self.line(q, seat).is_some());")]),
    ("the hand-in of another seat passes the limit", [
        ("commands.rs", "{ nothing() } else { self.acquire(p, seat) };",
         "{ nothing() } else { self.room(start, seat)?; self.one_more(start, seat); nothing() };")]),
    ("NOTHELD is judged by the group's count", [
        ("commands.rs", "if self.holds()[p] == 0 {", "if self.look(p as u16)?.count == 0 {")]),
    ("a draft is LINKED by itself", [
        ("commands.rs", "(0..self.n()).filter(|&q| q != p)", "0..self.n()")]),
    ("set leaves the former target LINKED", LEFT + [
        ("commands.rs", "        self.links[p][usize::from(k)] = t;\n",
         "        let former = usize::from(std::mem::replace(&mut self.links[p][usize::from(k)], t));\n"
         "        if former < self.n() && former != p && self.states[former] == DRAFT {\n"
         "            LEFT.lock().unwrap()[former] = true;\n        }\n")]),
    ("freeze leaves the links into a draft, and the number's next draft is LINKED", LEFT + [
        ("commands.rs", "            if reached {\n",
         "            if reached {\n                let draft = self.states[q] == DRAFT;\n"
         "                LEFT.lock().unwrap()[q] |= draft && (0..self.n()).any(|r| r != q && self.named(r).any(|t| t == q));\n")]),
    ("bin leaves the targets of the binned draft LINKED", LEFT + [
        ("commands.rs", "        self.clear(p);\n        self.settle()",
         "        self.named(p).filter(|&t| t != p && self.states[t] == DRAFT).for_each(|t| LEFT.lock().unwrap()[t] = true);\n"
         "        self.clear(p);\n        self.settle()")]),
    ("places within a group count", [
        ("pieces.rs", "filter(|&&p| !inside[p])", "filter(|&&p| p != *q)")]),
    ("numbers of six digits are read", [
        ("line.rs", "(1..=5)", "(1..=6)")]),
    ("byte 13 before the end is dropped", [
        ("trace.rs", 'line.strip_suffix(b"\\n").unwrap_or(line)',
         'line.strip_suffix(b"\\n").unwrap_or(line)).map(|line| line.strip_suffix(b"\\r").unwrap_or(line)')]),
    ("a last line without byte 10 is left out", [
        ("trace.rs", "split_inclusive(|&byte| byte == b'\\n')",
         "split_inclusive(|&byte| byte == b'\\n').filter(|line| line.ends_with(b\"\\n\"))")]),
    ("a line of over 64 bytes is read as two", [
        ("trace.rs", "split_inclusive(|&byte| byte == b'\\n')",
         "split_inclusive(|&byte| byte == b'\\n')\n"
         "        .flat_map(|line| { let (a, b) = line.split_at(line.len().min(65)); [a, b] })\n"
         "        .filter(|line| !line.is_empty())")]),
    ("a release takes from the first line that names the piece", [
        ("register.rs", "        self.register[own].number -= 1;",
         "        let own = self.register.iter().position(|line| usize::from(line.piece) == p).unwrap_or(own);\n"
         "        self.register[own].number -= 1;")]),
    ("SEAT is judged after NUMBER and FREE", [
        ("commands.rs", "        seated(seat)?;\n        let start = self.live(p)?;",
         "        let start = self.live(p)?;\n        seated(seat)?;")]),
    ("a seat above 31 makes the line bad", [
        ("line.rs", '[b"a", p, seat] => Some(Command::Acquire(number(p)?, number(seat)?))',
         '[b"a", p, seat] => Some(Command::Acquire(number(p)?, number(seat).filter(|&seat| seat < 32)?))')]),
    ("the seat of a line is passed over", [
        ("line.rs", "Some(Command::Release(number(p)?, number(seat)?))",
         "number(seat).and(Some(Command::Release(number(p)?, NO_SEAT)))")]),
    ("NOTYOURS is judged before NOTHELD", [
        ("commands.rs", "        if self.holds()[p] == 0 {", "        if self.holds()[p] == 0 && self.line(p, seat).is_some() {")]),
    ("LIMIT is judged by the seat's own holds", [
        ("commands.rs", "if self.holds()[p] == u32::from(HOLDS) {",
         "if self.line(p, seat).map_or(false, |own| self.register[own].number == HOLDS) {")]),
    ("REGISTER is given where a line is there", [
        ("register.rs", "self.line(p, seat).is_none() && self.register.len()", "self.register.len()")]),
    ("REGISTER is not given to a freeze of a draft", [
        ("commands.rs", "        self.room(start, seat)?;\n", ""),
        ("commands.rs", "        self.room(p, seat)?;\n", "        if self.register.iter().any(|line| usize::from(line.piece) == p) {\n"
         "            self.room(p, seat)?;\n        }\n")]),
    ("a freeze that REGISTER refuses freezes", [
        ("commands.rs", "        self.room(start, seat)?;\n", "")]),
    ("REGISTER is judged before LIMIT", [
        ("commands.rs", "        if self.holds()[p] == u32::from(HOLDS) {",
         "        self.room(p, seat)?;\n        if self.holds()[p] == u32::from(HOLDS) {")]),
]

# Wrong in what a call over tables or a lent trace shows: noticed by `doors`.
BY_DOOR = [
    ("N of 1,025 is right", [
        ("tables.rs", "(1..=CAPACITY)", "(1..=CAPACITY + 1)")]),
    ("a work area one short is right", [
        ("calls.rs", "work.len() < 8 * store.n {", "work.len() + 1 < 8 * store.n {"),
        ("calls.rs", "    work[..8 * store.n].fill(0);", "    let end = work.len().min(8 * store.n);\n    work[..end].fill(0);")]),
    ("1,001 holds are sound", [
        ("sound.rs", "store.holds[p] <= HOLDS", "store.holds[p] <= HOLDS + 1")]),
    ("a frozen piece may link to a draft", [
        ("sound.rs", "none_or(&[FROZEN])", "none_or(&[DRAFT, FROZEN])")]),
    ("a frozen piece kept by nobody is sound", [
        ("sound.rs", "all(|p| kept[p])", "all(|p| kept[p] || true)")]),
    ("check refuses unsound tables", [
        ("calls.rs", "Err(Refusal::Unsound) => Check { refusal: 0, yes: false },\n", "")]),
    ("an unsound store leaves the work area", [
        ("calls.rs", "    work[..8 * store.n].fill(0);\n    sound(store).ok_or(Refusal::Unsound)",
         "    let pieces = sound(store).ok_or(Refusal::Unsound)?;\n    work[..8 * store.n].fill(0);\n    Ok(pieces)")]),
    ("all of the work area is cleared", [
        ("calls.rs", "work[..8 * store.n].fill(0)", "work.fill(0)")]),
    ("the list is cleared behind the freed numbers", [
        ("calls.rs", "            list[..freed.len()]", "            list.fill(0);\n            list[..freed.len()]")]),
    ("a line of 0 is left standing", [
        ("register.rs", "        self.register.retain(|line| line.number > 0);\n", ""),
        ("register.rs", "self.line(p, seat).ok_or(",
         "self.line(p, seat).filter(|&own| self.register[own].number > 0).ok_or(")]),
    ("a new line stands at the end", [
        ("register.rs", "        self.register.sort();\n", "")]),
    ("a line goes and the last one takes its place", [
        ("register.rs", "        self.register.retain(|line| line.number > 0);\n",
         "        if self.register[own].number == 0 {\n            self.register.swap_remove(own);\n        }\n")]),
    ("start leaves the register", [
        ("calls.rs", "    write(&Pieces::empty(store.n), store);",
         "    let lines = store.register.to_vec();\n    write(&Pieces::empty(store.n), store);\n"
         "    store.register.copy_from_slice(&lines);")]),
    ("a longer register is right", [
        ("tables.rs", "self.register.len() == LINE * LINES", "self.register.len() >= LINE * LINES"),
        ("calls.rs", "store.register.copy_from_slice(", "store.register[..3_072].copy_from_slice(")]),
    ("a pair may stand twice", [
        ("sound.rs", "two[0][..2] < two[1][..2]", "two[0][..2] <= two[1][..2]")]),
    ("used lines end at the first unused one", [
        ("sound.rs", "unused.iter().all(|line| line == &[0; LINE])",
         "unused.iter().take(1).all(|line| line == &[0; LINE])"),
        ("register.rs", "        .filter(|line| line.number > 0)\n", "        .take_while(|line| line.number > 0)\n")]),
    ("holds may be more than the sum", [
        ("sound.rs", "sum == u32::from(p)", "sum <= u32::from(p)")]),
    ("set forgets the former target", [
        ("calls.rs", "    call(store, list, work, |pieces| pieces.set(p, k, t))",
         "    let former = store.links.get(4 * usize::from(p) + usize::from(k)).copied().unwrap_or(NONE);\n"
         "    let answer = call(store, list, work, |pieces| pieces.set(p, k, t));\n"
         "    if answer.refusal == 0 && former != NONE && former != p && store.states[usize::from(former)] == 1 {\n"
         "        store.into[usize::from(former)] += 1;\n    }\n    answer")]),
    ("set counts a piece's own link", [
        ("calls.rs", "    call(store, list, work, |pieces| pieces.set(p, k, t))",
         "    let answer = call(store, list, work, |pieces| pieces.set(p, k, t));\n"
         "    if answer.refusal == 0 && t == p {\n        store.into[usize::from(p)] += 1;\n    }\n    answer")]),
    ("freeze leaves entries behind: it clears that of P alone", [
        ("calls.rs", "    call(store, list, work, |pieces| pieces.freeze(p, seat))",
         "    let mut into = store.into.to_vec();\n    let answer = call(store, list, work, |pieces| pieces.freeze(p, seat));\n"
         "    if answer.refusal == 0 {\n        into[usize::from(p)] = 0;\n        store.into.copy_from_slice(&into);\n    }\n    answer")]),
    ("bin forgets the targets of the binned draft", [
        ("calls.rs", "    call(store, list, work, |pieces| pieces.bin(p))",
         "    let into = store.into.to_vec();\n    let answer = call(store, list, work, |pieces| pieces.bin(p));\n"
         "    store.into.copy_from_slice(&into);\n    answer")]),
    ("a draft's own links count as links into it", [
        ("pieces.rs", "let others = (0..self.n()).filter(|&q| q != p);", "let others = 0..self.n();")]),
    ("two places of one piece are one link into a draft", [
        ("pieces.rs", "others.flat_map(|q| self.named(q)).filter(|&named| named == p)",
         "others.filter(|&q| self.named(q).any(|named| named == p))")]),
    ("links into frozen pieces are kept too", [
        ("pieces.rs", "for p in self.in_state(DRAFT) {", "for p in self.in_state(DRAFT).chain(self.in_state(FROZEN)) {")]),
    ("start leaves the links into drafts", [
        ("calls.rs", "    write(&Pieces::empty(store.n), store);",
         "    let into = store.into.to_vec();\n    write(&Pieces::empty(store.n), store);\n"
         "    store.into.copy_from_slice(&into);")]),
    ("links into drafts are not checked", [
        ("sound.rs", "counted && linked && all_kept", "counted && all_kept")]),
    ("links into drafts are checked at drafts alone", [
        ("sound.rs", "pieces.links_into() == store.into",
         "pieces.in_state(DRAFT).all(|p| pieces.links_into()[p] == store.into[p])")]),
    ("a longer area of links into drafts is right", [
        ("tables.rs", "self.into.len() == self.n", "self.into.len() >= self.n"),
        ("sound.rs", "pieces.links_into() == store.into", "pieces.links_into() == store.into[..store.n]"),
        ("calls.rs", "store.into.copy_from_slice(", "store.into[..store.n].copy_from_slice(")]),
    ("an area of links into drafts that is one short is right", [
        ("tables.rs", "self.into.len() == self.n", "(self.n - 1..=self.n).contains(&self.into.len())"),
        ("sound.rs", "pieces.links_into() == store.into", "pieces.links_into()[..store.into.len()] == *store.into"),
        ("calls.rs", "store.into.copy_from_slice(&pieces.links_into())",
         "store.into.copy_from_slice(&pieces.links_into()[..store.into.len()])")]),
    ("a trace of 65,536 bytes is LONG", [
        ("tables.rs", "LENT: usize = 65_536", "LENT: usize = 65_535")]),
    ("a short room is left as it was", [
        ("trace.rs", "    room.fill(0);\n    if", "    if"),
        ("trace.rs", "    room[..output.len()]", "    room.fill(0);\n    room[..output.len()]")]),
]
