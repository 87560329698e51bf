"""Weakens the memory orders of the C file one by one, and says for which a run by chance finds a data race then.

An order has a half that acquires, a half that releases, or both. Each half is left out alone. The vector clocks see no
difference between a sequentially consistent operation and one that acquires and releases, so those count as the same. The
answers are compared with ORDERS.md, which has a reason for each half that no run needs."""
import re
import shutil

import programs

PAGE = programs.EXPLORE / "ORDERS.md"
HEAD = """# The memory orders of the C file

Each atomic operation of `c/parts` that is not relaxed, with what happens if the half of its order that acquires is left out,
or the half that releases: either runs by chance find a data race in a scenario, or the cell says why none is found.
Halves that no run needs stay. On x86-64 each of these orders costs the same as a relaxed one, except for a sequentially
consistent store, and the kit asks that a handle goes from one thread to another by a sequentially consistent operation. The
explorer can't tell such an operation from one that acquires and releases.

`scripts/c/explore --orders` leaves out each half anew and compares, and with `--write` it writes the rows and keeps the
reasons.

| Part | Function | Operation | Order | Without acquire | Without release |
|---|---|---|---|---|---|
"""
NO_HALF, NO_REASON, RACE = "", "no reason is given", "a race: "
SECONDS, RUNS = 20, 4000
SCENARIOS = ("here_wait2 close2 storm2 timed_lock timed_give timed_timed wake_all3_outside wait_for2 condvar_close2 "
             "here_timed close_give2 open_first2 static_first2 static_second2 numbers2 timed_give_both close_deputy2 "
             "two_deputies2 late_timed2 reopen2 orphan_taken3 give_twice2").split()
OPERATION = re.compile(r"__atomic_(\w+?)(?:_n)?\(")
ORDER = re.compile(r"__ATOMIC_(ACQ_REL|ACQUIRE|RELEASE|SEQ_CST)")
FUNCTION = re.compile(r"^[A-Za-z_][^\n]*?\b(\w+)\([^()]*\) \{", re.MULTILINE)


def is_failed(text, start, at):
    """Whether the order is that of a compare-and-exchange that fails: the second one."""
    return text[start:at].startswith("__atomic_compare_exchange") and "__ATOMIC_" in text[start:at]


def halves_of(order, operation):
    """The halves of the order, each with the order that is left without it."""
    acquires = order != "RELEASE" and not operation.startswith("store")
    releases = order != "ACQUIRE" and not operation.startswith(("load", "failed"))
    if acquires and releases:
        return {"acquire": "RELEASE", "release": "ACQUIRE"}
    return {"acquire" if acquires else "release": "RELAXED"}


def list_orders():
    """All orders: the part, the function, the operation with its number if the function has more, the order, and where."""
    for path in sorted((programs.TOP / "c/parts").glob("*.h")):
        text, seen = path.read_text(encoding="utf-8"), {}
        for found in ORDER.finditer(text):
            function = [it[1] for it in FUNCTION.finditer(text, 0, found.start())][-1]
            start = [it for it in OPERATION.finditer(text, 0, found.start())][-1]
            operation = ("failed " if is_failed(text, start.start(), found.start()) else "") + start[1]
            count = seen[function, operation] = seen.get((function, operation), 0) + 1
            yield path.name, function, operation + (f" {count}" if count > 1 else ""), found


def weaken(folder, part, found, order):
    """The C file in this folder, with another order in one place."""
    shutil.copytree(programs.TOP / "c", folder / "c")
    path = folder / "c/parts" / part
    text = path.read_text(encoding="utf-8")
    path.write_text(text[: found.start()] + "__ATOMIC_" + order + text[found.end() :], encoding="utf-8")
    return folder / "c/ligdrosa.c"


def find_race(folder, objects, part, found, order):
    """In which scenario a data race is found with this order, or None."""
    folder.mkdir()
    program = programs.build(folder, objects, weaken(folder, part, found, order), ["-w"])
    for scenario in SCENARIOS:
        status, said = programs.run(program, f"-w -a -r {RUNS}", scenario, SECONDS)
        if status == 1 and "a data race" in said.splitlines()[0]:
            return scenario
    return None


def read():
    """The cells of the page for each half: by part, function, operation and half."""
    lines = PAGE.read_text(encoding="utf-8").splitlines() if PAGE.exists() else []
    rows = [[cell.strip() for cell in line.strip("|").split("|")] for line in lines if line.startswith("| `")]
    return {(part.strip("`"), function.strip("`"), operation, half): cell for part, function, operation, _, *both in rows
            for half, cell in zip(("acquire", "release"), both) if cell != NO_HALF}


def judge(key, scenario, page):
    """What the page says of this half, and why that is wrong, or None."""
    cell = page.get(key, NO_REASON)
    if scenario:
        return RACE + scenario, None if cell.startswith(RACE) else f"the page says: {cell}"
    if cell.startswith(RACE) or cell == NO_REASON:
        return NO_REASON, "no run finds a race, and the page gives no reason why it stays"
    return cell, None


def write(orders, cells):
    text = HEAD
    for part, function, operation, found in orders:
        both = [cells.get((part, function, operation, half), NO_HALF) for half in ("acquire", "release")]
        row = [f"`{part}`", f"`{function}`", operation, found[1], *both]
        text += f"| {' | '.join(row)} |\n".replace("|  |", "| |").replace("|  |", "| |")
    PAGE.write_text(text, encoding="utf-8")


def weaken_all(folder, writes):
    """Weakens each half: the counts of those of which the page says what is found, and of the others."""
    objects, orders, page = programs.compile_all_but_the_c_file(folder), list(list_orders()), read()
    works = [((part, function, operation, half), found, order) for part, function, operation, found in orders
             for half, order in halves_of(found[1], operation).items()]
    places = [folder / str(i) for i in range(len(works))]
    look = lambda work, place: find_race(place, objects, work[0][0], *work[1:])
    cells, failed = {}, 0
    for (key, *_), scenario in zip(works, programs.side_by_side(look, works, places)):
        cells[key], why = judge(key, scenario, page)
        failed += why is not None
        what = f"{', '.join(key[:3])} without {key[3]}: {RACE + scenario if scenario else 'no race is found'}"
        print(f"FAILED {what}; {why}" if why else what, flush=True)
    for key in page.keys() - cells.keys():
        failed += 1
        print(f"FAILED {', '.join(key)} is on the page, and not in the C file", flush=True)
    if writes:
        write(orders, cells)
    return len(cells), failed
