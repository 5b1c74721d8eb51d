"""Shares the processors among the gate's tasks: the proof of each crate, that of its tests, and the tries of its wrong implementations.

The kit gives a proof all processors that no other proof waits for. A check by four jobs takes up to twice the processor time of one by
a single job, since a job is a copy of the process that checks some functions, and what it made is read back; and the tries of wrong
implementations wait meanwhile. Here each task has one job, and those with the longest chain of others after them begin first. For
./simulate, which is waited for, the proofs share what other tasks leave free, and one that all waits for has two jobs: it heads the longest
chain, and that takes longer than the processors need for all that is left. (By a model of the tasks on four processors that takes half a
minute off.) A check of few lines always has one job: most of its time is the loading of libraries, which comes before the jobs. The gate is
to take little processor time, so each of its checks has one job."""

from concurrent.futures import FIRST_COMPLETED, ThreadPoolExecutor, wait
from contextlib import nullcontext

from kit import rt

# The kinds of tasks that can make use of several jobs.
PROOFS = ("proof", "tests")
# The most jobs of one check, and what each job more takes of memory, as a part of what the first takes. (Three jobs of `fb_types` took 1.8 GB together,
# and one takes 1.6 GB: each begins as a copy of a process that has loaded everything.)
MOST_JOBS = 4
MORE_MEMORY = 0.2
# A check of fewer lines has one job.
FEW_LINES = 1_000
# The part of the free memory that is used.
MEMORY = 0.85
# By how much the longest chain must be longer than the processors' share of all that is left.
URGENT = 1.2
# What ends the commands that are still running if the kit's script is interrupted. Older kits have no name for it.
ENDING = getattr(rt, "ending", nullcontext)


def chains(tasks):
    """Returns for each task the work, in lines, of the longest chain of tasks that it begins. A task comes after those that it waits for."""
    after = dict.fromkeys(tasks, 0)
    for key in reversed([*tasks]):
        after[key] += tasks[key][1]
        for it in tasks[key][0]:
            after[it] = max(after[it], after[key])
    return after


def jobs_of(key, lines, idle, ready, is_urgent, most_jobs):
    """Returns how many jobs a task gets that may begin, while `idle` processors are free and `ready` tasks are ready, this one among them."""
    if key[1] not in PROOFS or lines < FEW_LINES:
        return 1
    return min(max(1 + is_urgent, 1 + idle - ready), most_jobs)


def in_lanes(tasks, most_jobs=MOST_JOBS):
    """Runs tasks side by side, one a processor, as many as memory holds, each once those it waits for have ended, and returns what each gave. A task is
    what it waits for, its work in lines, its memory, and a call that gets what was given and how many jobs it may use."""
    lanes, memory, after = rt.processors(), MEMORY * rt.free(), chains(tasks)
    left, running, given = sorted(tasks, key=lambda it: (it[1] not in PROOFS, -after[it])), {}, {}

    def is_urgent(key):
        begun = [it for it, _, _ in running.values()]
        rest = sum(tasks[it][1] for it in left) + sum(tasks[it][1] for it in begun) / 2
        return after[key] == max(after[it] for it in [*left, *begun]) and lanes * after[key] > URGENT * rest

    with ENDING(), ThreadPoolExecutor(lanes) as pool:
        while left or running:
            ready = [it for it in left if all(below in given for below in tasks[it][0])]
            lacks = False
            for number, key in enumerate(ready):
                _, lines, needs, call = tasks[key]
                idle = lanes - sum(jobs for _, _, jobs in running.values())
                room = memory - sum(held for _, held, _ in running.values())
                if idle <= 0 or lacks and key[1] not in PROOFS:
                    # (a proof that waits for memory gets it before the tries of wrong implementations)
                    break
                if running and needs > room:
                    lacks = True
                    continue
                # (what has no lines has no work)
                others = sum(tasks[it][1] > 0 for it in ready[number:])
                jobs = jobs_of(key, lines, idle, others, is_urgent(key), most_jobs)
                jobs = max(1, min(jobs, 1 + int((room / needs - 1) / MORE_MEMORY)))
                left.remove(key)
                running[pool.submit(call, given, jobs)] = key, needs * (1 + MORE_MEMORY * (jobs - 1)), jobs
            for it in wait(running, return_when=FIRST_COMPLETED).done:
                given[running.pop(it)[0]] = it.result()
    return given
