"""The table of scenarios, SCENARIOS.md: it is written from what the explorer has counted, and compared with it."""
import programs

PAGE = programs.EXPLORE / "SCENARIOS.md"
HEAD = """# The scenarios

Each was explored to its end: every state once, on one processor. `scripts/c/explore --write` writes this page, and with
`--short` only the rows that are not of a long scenario. Without `--write` it fails if the counts of a scenario that it
explores differ from its row: states or transitions by more than 20 and one in a hundred, ends by more than one. A state has
the bytes of dead stack frames, with addresses that the system and the build choose, so each run finds a few states more or
less. The counts depend on the compiler, so they are compared if it is the same. The seconds of processor time depend on the
machine.

"""
BY = "Counted with the compiler "
MEANINGS = {
    "-w": "each proved call is one step",
    "": "each step of a proved call is one of its own",
    "-w -n": "an unlock rings for one waiter. The ends are the same states as if it rings for four",
    "-w -p 4": "with four processors, so that threads spin",
    "-w -s": "the system may wake a sleeper for no reason",
    "-w -f": "memory may be refused",
    "-w -a": "loops that wait make all their rounds. The ends are the same states as with one round",
}


def heading(of, options):
    return f"## Over {of}: {MEANINGS[options]}"


def number(digits):
    return f"{int(digits):,}"


def write(found, scenarios):
    """Writes the page: the rows of what was found, and as they were those of other long scenarios, and of what was not run
    at all. Scenarios come in the order in which the explorer lists them."""
    text, (_, before) = HEAD + BY + programs.compiler() + ".\n", read()
    ways = [(of, options) for options in MEANINGS for of in ("the model", "the proved calls")]
    run, there = {work[:2] for work in found}, {at for at, _ in before}
    ways = [way for way in ways if way in run or heading(*way) in there]
    for way in ways:
        text += f"\n{heading(*way)}\n\n| Scenario | Threads | What they do | States | Transitions | Ends | Seconds |\n"
        text += "|---|---|---|---|---|---|---|\n"
        for name, (threads, what, is_long) in scenarios.items():
            counts, cells = found.get((*way, name)), before.get((heading(*way), name))
            if counts:
                cells = [f"`{name}`" + " (long)" * is_long, str(threads), what]
                cells += [number(counts[key]) for key in ("states", "transitions", "ends")] + [counts["seconds"]]
            elif not is_long and way in run:
                continue
            if cells:
                text += f"| {' | '.join(cells)} |\n"
    PAGE.write_text(text, encoding="utf-8")


def read():
    """The compiler of the page, and the cells of its rows by heading and scenario."""
    lines = PAGE.read_text(encoding="utf-8").splitlines() if PAGE.exists() else []
    by, at, rows = None, None, {}
    for line in lines:
        if line.startswith(BY):
            by = line.removeprefix(BY).removesuffix(".")
        elif line.startswith("## "):
            at = line
        elif line.startswith("| `"):
            cells = [cell.strip() for cell in line.strip("|").split("|")]
            rows[at, cells[0].split("`")[1]] = cells
    return by, rows


def agree(here, there):
    """Whether two counts of a scenario are of one search: `states, transitions, ends`, or None for a row that is missing."""
    if here is None or there is None:
        return False
    (*counts, ends), (*others, other_ends) = ([int(count) for count in text.split(", ")] for text in (here, there))
    return abs(ends - other_ends) <= 1 and all(abs(a - b) <= 20 + b // 100 for a, b in zip(counts, others))


def compare(found, is_all):
    """A line for each scenario that the page has with other counts, or has not; and if all were run, for each row of the
    page that no scenario has."""
    by, rows = read()
    if by != programs.compiler():
        print(f"left out: comparing the counts of {PAGE.name}, which are of the compiler {by}")
        return
    there = {row: ", ".join(cell.replace(",", "") for cell in cells[3:6]) for row, cells in rows.items()}
    here = {(heading(of, options), name): ", ".join(counts[key] for key in ("states", "transitions", "ends"))
            for (of, options, name), counts in found.items()}
    for row in {**here, **there} if is_all else here:
        if not agree(here.get(row), there.get(row)):
            says = [counts.get(row, "no") for counts in (here, there)]
            yield f"{row[0][3:]}: {row[1]} has {says[0]} states, transitions and ends; {PAGE.name} says {says[1]}"
