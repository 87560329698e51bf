"""Plants faults in copies of the C file, one by one. The explorer has to find each, with one round of the loops that wait
and with all."""
import shutil

import programs

SECONDS = 110


def read(path):
    """The idea of a fault, its file, in which runs it is found, and the old and the new text."""
    lines = path.read_text(encoding="utf-8").splitlines()
    part = lambda key: [line[len(key) + 2:] for line in lines if line.startswith(key + ": ") or line == key + ":"]
    return part("file")[0], part("found by"), "\n".join(part("old")), "\n".join(part("new"))


def change(folder, part, old, new):
    """A copy of the C file in this folder, with the text changed in one of its parts."""
    shutil.copytree(programs.TOP / "c", folder / "c")
    path = folder / "c/parts" / part
    text = path.read_text(encoding="utf-8")
    if text.count(old) != 1:
        return None
    path.write_text(text.replace(old, new), encoding="utf-8")
    return folder / "c/ligdrosa.c"


def find(program, runs, more):
    """What the first of the runs says that finds the fault, or None."""
    for each in runs:
        *options, scenario = each.split()
        status, said = programs.run(program, " ".join([*options, *more]), scenario, SECONDS)
        if status == 1:
            return said.splitlines()[0]
    return None


def plant(path, folder, objects):
    """Plants a fault: what the run says that finds it, or None and why there is none."""
    part, runs, old, new = read(path)
    c_file = change(folder, part, old, new)
    if not c_file:
        return None, f"its old text is not in {part}, or more than once"
    program = programs.build(folder, objects, c_file)
    said = find(program, runs, [])
    if not said:
        return None, "no run finds it"
    if not find(program, runs, ["-a"]):
        return None, f"it is found by one round of loops, and not by all: {said}"
    return said + ("" if any("-w" in each.split() for each in runs) else " (by a point inside a proved call)"), None


def paths_of_all():
    return sorted(programs.EXPLORE.glob("faults/*.edit"))


def check_texts():
    """The counts of faults whose old text is in its part once, and of the others: these could not be planted."""
    failed = 0
    for path in paths_of_all():
        part, _, old, _ = read(path)
        if (programs.TOP / "c/parts" / part).read_text(encoding="utf-8").count(old) != 1:
            failed += 1
            print(f"FAILED {path.stem}: its old text is not in {part}, or more than once", flush=True)
    return len(paths_of_all()) - failed, failed


def plant_all(names, folder):
    """The counts of what was found and what was not."""
    objects = programs.compile_all_but_the_c_file(folder)
    paths = [path for path in paths_of_all() if not names or path.stem in names]
    places = [folder / path.stem for path in paths]
    for place in places:
        place.mkdir()
    found = 0
    for path, (said, why) in zip(paths, programs.side_by_side(lambda *it: plant(*it, objects), paths, places)):
        found += said is not None
        print(f"{path.stem}: {said}" if said else f"FAILED {path.stem}: {why}", flush=True)
    return found, len(paths) - found
