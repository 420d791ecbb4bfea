"""The targets, and the tables of docs/SPEED.md as Markdown."""

# The targets, as ratios to C: of the instructions and of the time of trace lines, and of calls.
LINE_INSTRUCTIONS, LINE_TIME, CALL_INSTRUCTIONS, CALL_TIME = 1.3, 1.5, 1.25, 1.5


def table(head, rows):
    """A Markdown table; all columns but the first to the right."""
    lines = [head, ["---"] + ["---:"] * (len(head) - 1)] + rows
    return "\n".join("| " + " | ".join(str(cell) for cell in line) + " |" for line in lines)


def ratio(got, plain):
    return f"{got / plain:.2f}" if got is not None and plain else "-"


def figure(value, digits=1):
    return "-" if value is None else f"{value:,.{digits}f}"


def of(profile, what):
    """The ratio of a profile, by instructions or by times; none if one is not known."""
    got, plain = profile[what]
    return got / plain if got and plain else None


def verdict(value, target):
    return "-" if value is None else "met" if value <= target else "MISSED"


def judged(profile, emulated):
    """The verdicts on a profile, by instructions and by time; times of an emulator have none."""
    by_time = None if emulated else of(profile, "times")
    return verdict(of(profile, "instructions"), LINE_INSTRUCTIONS), verdict(by_time, LINE_TIME)


def verdicts(profiles, ratios, counts, emulated):
    """In words how many profiles and calls meet each target, and which do not."""
    columns = list(zip(*(judged(profile, emulated) for profile in profiles)))
    names = [profile["name"] for profile in profiles]
    for what, target, column in (("instructions", LINE_INSTRUCTIONS, columns[0]),
                                 ("time", LINE_TIME, columns[1])):
        yield from met("Trace lines", "profiles", what, target, zip(names, column))
    for what, target, values in (("instructions", CALL_INSTRUCTIONS, counts),
                                 ("time", CALL_TIME, {} if emulated else ratios)):
        judgements = ((f"{call} ({shape})", verdict(value, target))
                      for (shape, call), value in values.items())
        yield from met("Public calls", "calls", what, target, judgements)


def met(lines, many, what, target, judgements):
    """In words how many meet a target, and which do not; nothing where none is judged."""
    known = [(name, one) for name, one in judgements if one != "-"]
    missed = [name for name, one in known if one == "MISSED"]
    if known:
        yield (f"{lines}, at most {target} times the C by {what}: "
               f"{len(known) - len(missed)} of {len(known)} {many}"
               + (f"; not: {'; '.join(missed)}." if missed else "."))


def trace_table(profiles, emulated):
    head = ["Profile", "bytes a line", "C, instructions a line", "program, instructions",
            "ratio of instructions", f"target {LINE_INSTRUCTIONS}", "C, ns a line", "program, ns",
            "ratio of times", f"target {LINE_TIME}"]
    rows = []
    for profile in profiles:
        (counted, wanted), (program, plain) = profile["instructions"], profile["times"]
        by_instructions, by_time = judged(profile, emulated)
        rows.append([profile["name"], figure(profile["bytes"]), figure(wanted, 0),
                     figure(counted, 0), ratio(counted, wanted), by_instructions, figure(plain),
                     figure(program), ratio(program, plain), by_time])
    return table(head, rows)


def ordered(rows, column):
    """The different values of a column, in their order."""
    return list(dict.fromkeys(row[column] for row in rows))


def call_counts(rows, counted):
    """By shape and call the ratio of the instructions, where they are counted."""
    return {key: counted[key + ("pieces",)][0] / counted[key + ("plain",)][0]
            for key in ((row[0], row[1]) for row in rows) if key + ("plain",) in counted}


def call_ratios(rows, counted, emulated):
    """By shape and call the ratio of the times; of the instructions where an emulator runs them."""
    if emulated:
        return call_counts(rows, counted)
    return {(row[0], row[1]): row[5] / row[4] for row in rows}


def ratio_table(rows, ratios):
    """Ratios of the calls, a row each, by shape."""
    shapes = ordered(rows, 0)
    return table(["Call"] + shapes,
                 [[call] + [f"{ratios[shape, call]:.2f}" if (shape, call) in ratios else "-"
                            for shape in shapes] for call in ordered(rows, 1)])


def call_table(rows, counted):
    head = ["Shape", "call", "C, ns a call", "libpieces.a", "ratio", "C, instructions",
            "libpieces.a, instructions", "ratio of instructions", "C, stores", "libpieces.a, stores"]
    lines = []
    for shape, call, _, _, plain, pieces in rows:
        (wanted, put), (got, stored) = (counted.get((shape, call, side), (None, None))
                                        for side in ("plain", "pieces"))
        lines.append([shape, call, figure(plain, 0), figure(pieces, 0), ratio(pieces, plain),
                      figure(wanted, 0), figure(got, 0), ratio(got, wanted), figure(put, 0),
                      figure(stored, 0)])
    return table(head, lines)


def growth_table(rows, column, first, name):
    """Nanoseconds by libpieces.a and the ratio, a row for each value of the column."""
    names = list(dict.fromkeys(name(row) for row in rows))
    by = {(row[column], name(row)): f"{row[5]:,.0f} ({ratio(row[5], row[4])})" for row in rows}
    return table([first] + names,
                 [[f"{at:,}"] + [by[at, one] for one in names] for at in ordered(rows, column)])


def beside_table(rows):
    """What lines over and over take, a row for each number of live pieces beside them."""
    names = ordered(rows, "name")
    by = {(row["size"], row["name"]): row for row in rows}
    head = ["Live pieces"] + [f"{name}, {what}" for name in names for what in ("instructions", "ns")]

    def cells(row):
        for what in ("instructions", "times"):
            yield f"{figure(row[what][0])} ({ratio(*row[what])})"
    return table(head, [[f"{size:,}"] + [cell for name in names for cell in cells(by[size, name])]
                        for size in ordered(rows, "size")])


def chain_table(chains):
    rows = []
    for chain in chains:
        (counted, wanted), (program, plain) = chain["instructions"], chain["times"]
        rows.append([f"{chain['size']:,}", figure(wanted), figure(counted), ratio(counted, wanted),
                     figure(plain), figure(program), ratio(program, plain)])
    return table(["Pieces in the chain", "C, instructions a piece", "program, instructions", "ratio",
                  "C, ns a piece", "program, ns", "ratio"], rows)
