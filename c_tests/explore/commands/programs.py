"""How the explorer is built, over a model of the proved calls or over these, and how it is run."""
import concurrent.futures
import os
import pathlib
import re
import shutil
import subprocess

EXPLORE = pathlib.Path(__file__).resolve().parent.parent
TOP = EXPLORE.parent.parent
FLAGS = ["-std=gnu11", "-g", "-fno-stack-protector", "-fcf-protection=none", "-fno-pie", "-fno-omit-frame-pointer", "-Wall"]
# what is compiled so that each access calls the explorer, and what is not
SCENARIOS = [f"scenarios/{path.stem}" for path in sorted((EXPLORE / "scenarios").glob("*.c"))]
WATCHED = ["c_file", "model", *SCENARIOS]
OWN = [path.stem for path in sorted(EXPLORE.glob("*.c")) if path.stem not in ("c_file", "model", "real")]
RUN_BY_CHANCE = "-r"


def compile_file(name, folder, more=()):
    watched = ["-O1", "-fsanitize=thread"] if name in WATCHED else ["-O2"]
    target = folder / (name.replace("/", "_") + ".o")
    folders = [f"-I{EXPLORE}", f"-I{TOP}/include"]
    subprocess.run(["gcc", *FLAGS, *watched, *more, *folders, "-c", f"{EXPLORE}/{name}.c", "-o", target], check=True)
    return target


def compile_all(names, folder):
    return list(side_by_side(lambda name: compile_file(name, folder), names))


def compile_all_but_the_c_file(folder):
    """What the explorer over the model has besides the C file."""
    return compile_all(["model", *SCENARIOS, *OWN], folder)


def build(folder, objects, c_file=TOP / "c/ligdrosa.c", more=()):
    """The explorer of these objects over this C file, which may be changed."""
    of_c = compile_file("c_file", folder, [f'-DLIGDROSA_C="{c_file}"', *more])
    subprocess.run(["gcc", "-no-pie", of_c, *objects, "-o", folder / "explore"], check=True)
    return folder / "explore"


def build_with_rings_for_all(folder, objects):
    """The explorer over the model, with the unlock of the library to preload."""
    folder.mkdir()
    return build(folder, objects, more=["-DLFM_UNLOCK_RINGS_FOR_ALL=1"])


def build_over_proved_calls(folder, objects):
    """The explorer over the proved calls themselves, which take the place of the first object, or None if they are not
    built, or without pools."""
    proved = TOP / "crates/lfm_c/out/liblfm_c.a"
    if not proved.is_file() or not shutil.which("rt") or not shutil.which("objcopy"):
        return None
    if b"lfm_c_pool_count" not in proved.read_bytes():
        return None
    folder.mkdir()
    kit = pathlib.Path(subprocess.run(["rt", "doc"], check=True, capture_output=True, text=True).stdout.strip()).parent
    allocation = folder / "allocation.a"
    names = ["malloc=lfm_allocate", "free=lfm_release", "realloc=lfm_resize"]
    renames = [word for name in names for word in ("--redefine-sym", name)]
    subprocess.run(["objcopy", *renames, kit / "c/liblibc_c.a", allocation], check=True)
    wraps = [f"-Wl,--wrap=lfm_c_pool_{call}" for call in ("ask", "receive", "try_lock", "unlock", "count")]
    return build(folder, [*objects[1:], compile_file("real", folder), proved, allocation, *wraps])


def run(program, options, scenario, seconds):
    """What the explorer says of a scenario: its status, and its text."""
    ran = subprocess.run([program, *options.split(), "-T", str(seconds), scenario], capture_output=True, text=True)
    return ran.returncode, ran.stdout


def counts_in(text):
    """The numbers that the explorer prints of a scenario that it has explored, or None."""
    form = r"(\d+) states, (\d+) transitions, (\d+) ends of sum (\w+), depth \d+, ([\d.]+) s\n"
    found = re.search(form, text)
    return found and dict(zip(("states", "transitions", "ends", "sum", "seconds"), found.groups()))


def side_by_side(function, *lists):
    """What the function answers for each of the lists' items, in their order, by as many threads as there are processors."""
    with concurrent.futures.ThreadPoolExecutor(len(os.sched_getaffinity(0))) as pool:
        yield from pool.map(function, *lists)


def compiler():
    return subprocess.run(["gcc", "--version"], check=True, capture_output=True, text=True).stdout.splitlines()[0]
