"""Tasks side by side, in the place of the kit's `in_lanes`.

What has nearly the longest path of others after it leads. The other proofs and the tests run
beside it at a lower priority, and edits at a still lower one. So each takes what those before it leave: no task has work for all
processors all the time. Only what has nearly the longest path of what could run has more jobs than it needs: two where that path is longer
than what is left for each processor, and as many as the others leave idle, of which a proof with less work counts for its share alone.
Several jobs take the processors longer than one: a seventh with kit 13f, up to two thirds with 13b. A caller who has measured what serves best may say in its place
how many jobs each task has, and which lead."""
import os
from concurrent.futures import FIRST_COMPLETED, ThreadPoolExecutor, wait

# What a call answers that is to be called once more, and one that leaves nothing to do for the other shares of its work.
AGAIN, NO_MORE = object(), object()
# The priorities: of what leads, of the other proofs and the tests, and of edits.
LEAD, FRONT, BACK = 0, 5, 10


def paths(tasks):
    """By task: its work, and that of the longest chain of others behind it."""
    found = {it: 0 for it in tasks}
    # (a task comes after those that it waits for)
    for key in reversed([*tasks]):
        found[key] += tasks[key][1]
        for it in tasks[key][0]:
            if it in found:
                found[it] = max(found[it], found[key])
    return found


def step_back(priority):
    """Gives the calling thread, and all that it starts, at most this priority."""
    os.setpriority(os.PRIO_PROCESS, 0, max(priority, os.getpriority(os.PRIO_PROCESS, 0)))


class Lanes:
    """Lanes of one priority: how many are idle, and the pool of threads that runs what is on them."""

    def __init__(self, number, priority):
        self.number = self.idle = number
        self.pool = ThreadPoolExecutor(number, initializer=step_back, initargs=(priority,))


def run(tasks, given, processors, memory, memory_for, planned=None):
    """Runs each task once those that it waits for have ended, and adds what each gave to what is given. A task is what it waits
    for, its work, and a call that gets what was given and how many jobs it may use; so many jobs take the memory that `memory_for` says.
    Where `planned` is given, it says of each task how many jobs it has, and whether it leads."""
    behind = paths(tasks)
    # (several tasks may lead, each with several jobs)
    lead, front, back = Lanes(2 * processors, LEAD), Lanes(max(processors, 2), FRONT), Lanes(processors, BACK)
    left, running = [*tasks], {}

    def is_ready(key):
        return all(it in given for it in tasks[key][0])

    def lanes_of(key):
        if key[1] == "edits":
            return back
        if planned:
            return lead if planned[key][1] else front
        leads = 5 * behind[key] >= 4 * max(behind[it] for it in tasks if it not in given)
        return lead if leads else front

    def jobs_for(key, lanes):
        """How many jobs the task may use: more than one where its path is nearly the longest of those that could run now."""
        if lanes is back:
            return 1
        if planned:
            return min(planned[key][0], processors)
        could_run = [it for it in [*left, *(it for it, _, _ in running.values())] if is_ready(it)]
        longest = max(behind[it] for it in could_run)
        leading = [it for it in could_run if 10 * behind[it] >= 9 * longest]
        if key not in leading:
            return 1
        # (a proof with less work leaves its processor before this one has ended)
        others = sum(1 if it[1] == "edits" else min(1, tasks[it][1] / max(1, tasks[key][1])) for it in could_run if it not in leading)
        is_waited_for = processors * behind[key] > sum(tasks[it][1] for it in left)
        return max(2 if is_waited_for else 1, int((processors - others) / len(leading)))

    def start():
        """Starts what there is room for: first what gathers the results of a crate's edits, so that the crate is kept, then proofs
        and tests, then edits, and of each what has the longest path behind it."""
        left.sort(key=lambda it: (len(it) > 2, it[1] != "edits", -behind[it]))
        for lanes in lead, front, back:
            ready = [it for it in left if is_ready(it) and lanes_of(it) is lanes]
            for key in ready:
                jobs = min(jobs_for(key, lanes), lanes.idle)
                taken = sum(memory_for(it) for _, it, _ in running.values())
                while jobs and running and taken + memory_for(jobs) > memory:
                    jobs -= 1
                if jobs >= 1:
                    left.remove(key)
                    lanes.idle -= jobs
                    running[lanes.pool.submit(tasks[key][2], given, jobs)] = key, jobs, lanes

    start()
    while running:
        for it in wait(running, return_when=FIRST_COMPLETED).done:
            key, jobs, lanes = running.pop(it)
            lanes.idle += jobs
            if it.result() is AGAIN:
                left.append(key)
                continue
            given[key] = it.result()
            if given[key] is NO_MORE:
                for other in [it for it in left if it[:2] == key[:2] and len(it) == len(key)]:
                    left.remove(other)
                    given[other] = NO_MORE
        start()
    for lanes in lead, front, back:
        lanes.pool.shutdown()
