"""Runs the tasks of `rt ci` side by side, for tools/rt

The kit gives each task one processor to its end where RT_JOBS says how many there may be, and else plans more memory than
checks take. Here as many run as there are lanes, those with the longest chain of others after them first. The first of these
begins even where no lane is free, takes a single one, and has three jobs at least, since all others wait for it; it has four
where nothing else can be done meanwhile. The others give way to it. A chain is as long as the lines of code, definitions and
proofs in it.
"""

import concurrent.futures
import contextlib
import os
import threading

# A check with more jobs than this gains little.
MOST_JOBS = 4
# How many jobs the check has for which all others wait.
FIRST_JOBS = 3
# How nice a task is to the one for which all others wait.
NICE = 10


def weight(rt, key, lines):
    """Returns how much work a task is: the lines of a crate that is proved, and what the kit says of others."""
    if key[1] != "proof":
        return lines
    files = rt.rtlib.files_of(f"{os.getcwd()}/crates/{key[0]}")
    return sum((rt.rtlib.text_of(it) or "").count("\n") for it in files)


def chains(rt, tasks):
    """Returns for each task the work of the longest chain that begins with it. Each task comes after those that it waits for."""
    behind = dict.fromkeys(tasks, 0)
    for key in reversed([*tasks]):
        behind[key] += weight(rt, key, tasks[key][1])
        for it in tasks[key][0]:
            behind[it] = max(behind[it], behind[key])
    return behind


def jobs_of(key, is_first, idle, waiting):
    """Returns how many jobs a task gets, of the idle processors where so many tasks wait for one, this among them."""
    if key[1] == "edits":
        return 1
    return max(FIRST_JOBS if is_first else 1, min(MOST_JOBS, idle, idle // max(1, waiting)))


def give_way():
    """Has this thread, and what it will start, leave the processors to others."""
    os.setpriority(os.PRIO_PROCESS, threading.get_native_id(), NICE)


def watched(call, key, watch):
    """Returns a task that tells a watch, if there is one, that it begins and what it gave."""
    if not watch:
        return call

    def work(given, jobs):
        watch.begin(key)
        gave = call(given, jobs)
        watch.end(key, gave)
        return gave

    return work


def replace(rt, lanes, watch=None):
    """Has the kit's `rt ci` run its tasks in this way. A watch is told of each that it begins and that it ended."""

    def in_lanes(tasks):
        behind = chains(rt, tasks)
        left, running, given = sorted(tasks, key=lambda it: -behind[it]), {}, {}
        # (a kit may have left what it copied for its edits)
        with contextlib.ExitStack() as ends:
            ends.enter_context(getattr(rt, "ending", contextlib.nullcontext)())
            others = ends.enter_context(concurrent.futures.ThreadPoolExecutor(2 * lanes, initializer=give_way))
            firsts = ends.enter_context(concurrent.futures.ThreadPoolExecutor(2 * lanes))
            while left or running:
                ready = [it for it in left if all(below in given for below in tasks[it][0])]
                for at, key in enumerate(ready):
                    idle = lanes - sum(taken for _, taken in running.values())
                    is_first = at == 0 and key[1] == "proof" and all(behind[it] < behind[key] for it, _ in running.values())
                    if idle < 1 and not is_first:
                        break
                    waiting = sum(tasks[it][1] > 0 for it in ready[at:])
                    jobs = jobs_of(key, is_first, idle, waiting)
                    left.remove(key)
                    pool = firsts if is_first else others
                    running[pool.submit(watched(tasks[key][3], key, watch), given, jobs)] = key, 1 if is_first else jobs
                ended = concurrent.futures.wait(running, return_when=concurrent.futures.FIRST_COMPLETED).done
                for it in ended:
                    given[running.pop(it)[0]] = it.result()
        return given

    rt.in_lanes = in_lanes
