"""Runs the scenarios, in all ways, and compares what was explored with the table of them."""
import subprocess

import programs
import table

MODEL, PROVED = "the model", "the proved calls"
# over the model, with the unlock of the library to preload, which rings for all
RINGS_FOR_ALL = "the model, with an unlock that rings for all"
# The ways: over what, with which options, and which scenarios, or None for all, without the long ones if the run is short.
WAYS = [
    (MODEL, "-w", None),
    (PROVED, "-w", None),
    (MODEL, "-w", "wake_all4"),
    (MODEL, "", "lock2 lock3 order2 order3 try3 deep2 timed2 timed3 timed_both timed_give timed_lock timed_order timed_timed "
                "timed_try timed_depth deputy_deep2 deputy_behind2 deputy_wait2 deputy_wake2 here_timed late2 late_timed2 "
                "give2 here2 give_order2 close_while_held2 close_deputy2 here_timed_close close2 close_barging2 reopen2 "
                "reopen3 close_hand2 close_give2 wait2 wait2_inside wait_for2 wait_for2_inside condvar_close2 "
                "condvar_close2_inside condvar_close_refused2 here_wait2 ping_pong timed_wait2 wake_by_another_mutex2 "
                "closed_beside_another2 timed_in_both2 two_deputies2"),
    (MODEL, "-w -n", "wake_all3 wakes3_inside wake_on3 wake_all4"),
    (PROVED, "-w -n", "wake_all3 wakes3_inside wake_on3"),
    (RINGS_FOR_ALL, "-w", "wake_all3 wakes3_inside wake_on3 wake_all4 wake_by_another_mutex2 deputy_wake2 wait_for2_inside"),
    (MODEL, "-w -p 4", "lock2 order2 order3 deep2 timed2 timed_lock wait2 wait2_inside wait_for2 ping_pong"),
    (MODEL, "-w -s", "order2 order3 timed2 timed3 timed_lock wait2 wait_for2 ping_pong give2 timed_give wakes3_inside"),
    (MODEL, "-w -f", "open_first2 static_first2 open_second2 seat_here2"),
    (MODEL, "-w -a", "lock2 lock3 order3 try3 timed2 timed3 timed_both timed_give timed_lock timed_timed timed_try give2 "
                     "deputy_deep2 deputy_wait2 deputy_wake2 here_timed late2 storm2 give_twice2 here2 seat_here2 close2 "
                     "close_barging2 close_hand2 close_deputy2 reopen2 open_first2 static_first2 open_second2 numbers2 "
                     "mutex_numbers2 wait2 wake_all3 wait_for2 condvar_close2 condvar_close_refused2 here_wait2 ping_pong "
                     "wake_by_another_mutex2 two_deputies2"),
    (MODEL, "-w -r 3000", "here_wait2 close2 storm2 timed_lock timed_give timed_timed wake_all3_outside wait_for2 "
                          "condvar_close2 here_timed close_give2 wake_all4 open_first2 static_first2 static_second2 "
                          "numbers2 orphan_taken3 orphan_timed3 two_deputies2 late_timed2 reopen3"),
]
# for how many seconds of processor time a scenario may run
SECONDS, SECONDS_IF_LONG = 110, 900


def listed(program):
    """The scenarios by name: how many threads each has, what it does, and whether it is long."""
    lines = subprocess.run([program], capture_output=True, text=True, check=True).stdout.splitlines()
    split = [line.split(None, 2) for line in lines]
    return {name: (int(threads), rest.removeprefix("threads: ").removesuffix(" (long)"), rest.endswith(" (long)"))
            for name, threads, rest in split}


def works_of(over, scenarios, is_short):
    """What is to be run, the longest first: over what, with which options, and which scenario."""
    some = [name for name, (_, _, is_long) in scenarios.items() if not (is_short and is_long)]
    works = [(of, options, name) for of, options, names in WAYS if of in over for name in (names.split() if names else some)]
    return sorted(dict.fromkeys(works), key=lambda work: not scenarios[work[2]][2])


def judge(work, status, text, found):
    """Why a run has failed, or None. What it has explored to its end is kept in `found`."""
    if status != 0:
        return text or f"it ended with {status}"
    if programs.RUN_BY_CHANCE not in work[1].split():
        found[work] = programs.counts_in(text)
        if not found[work]:
            return f"it says no counts: {text}"
    return None


def compare_ends(found):
    """A line for each scenario that has other end states with all rounds of loops, or with more or fewer rings by an unlock."""
    for (of, options, name), counts in found.items():
        if options in ("-w -a", "-w -n") or of == RINGS_FOR_ALL:
            usual = found[MODEL if of == RINGS_FOR_ALL else of, "-w", name]
            if (counts["ends"], counts["sum"]) != (usual["ends"], usual["sum"]):
                yield f"{name}: {counts['ends']} end states over {of} with {options}, {usual['ends']} with -w, or others"


def explore(over, is_short, writes):
    """Runs all scenarios over these programs, or those that are not long: the counts of what passed and what failed."""
    scenarios = listed(over[MODEL])
    works, found = works_of(over, scenarios, is_short), {}
    run = lambda work: programs.run(over[work[0]], work[1], work[2], SECONDS_IF_LONG if scenarios[work[2]][2] else SECONDS)
    failures = []
    for work, (status, text) in zip(works, programs.side_by_side(run, works)):
        why = judge(work, status, text, found)
        if why:
            failures.append(f"over {work[0]} {work[1]}: {why.rstrip()}")
            print(f"FAILED {failures[-1]}", flush=True)
        elif not is_short:
            print(f"over {work[0]} {work[1]}: {text.strip()}", flush=True)
    passed = len(works) - len(failures)
    if failures:
        return passed, len(failures)
    of_all = list(compare_ends(found))
    of_table = {work: counts for work, counts in found.items() if work[0] != RINGS_FOR_ALL}
    if writes:
        table.write(of_table, scenarios)
    else:
        of_all += table.compare(of_table, not is_short and PROVED in over)
    for line in of_all:
        print(f"FAILED {line}", flush=True)
    return passed + 1, len(of_all)
