"""Proves the crates that the program stands on, and links it.

    python3 tools/build.py [--keep]
    python3 tools/build.py --linked-by COMMAND ..

A line says when a crate is begun, and one when it is proved. Crates that don't stand on each other are proved side by
side, by the processors that are idle, as far as memory reaches. What was proved before and hasn't changed is not proved
again. With --keep the checks of a crate's functions are kept too, so that the next build of it, and of those above it,
only checks what changed; a first build takes longer by that. A crate of which they are kept goes on with them. The
second runs a command that proves everything and links the program, as `rt ci`; the first then takes that program, as
long as the sources are the same."""

import concurrent.futures
import os
import shutil
import subprocess
import sys
import time

from crates import LIBRARIES, ROOT, below, free_memory, has_changed, sum_of
from minutes import read_minutes
from proved import count_in, is_kept, is_recorded, keep, made, prove
from rattle import rlib

PROGRAM = "osb_program"
# About how many minutes a crate takes where nothing of it is kept: those of one process, and those that its jobs share. If
# its jobs share nothing, it gets one job.
MINUTES = read_minutes()["check"]
MINUTES_OF_OTHERS = (0.1, 0.1)
MOST_JOBS = 4
# What a check takes of memory, and each of its jobs beyond the first.
BYTES = {"osb_statements": 4_000_000_000, "osb_listen": 4_000_000_000, "osb_cli": 5_500_000_000, "osb_program": 7_500_000_000}
BYTES_OF_OTHERS = 2_500_000_000
BYTES_OF_JOB = 1_500_000_000


def say(text):
    print(text, flush=True)


def clock(seconds):
    return f"{int(seconds) // 60} min {int(seconds) % 60:02} s" if seconds >= 60 else f"{seconds:.0f} s"


def minutes(crate, jobs):
    of_one, shared = MINUTES.get(crate, MINUTES_OF_OTHERS)
    return of_one + shared / jobs


def chain(crate, crates):
    """The minutes of the longest chain of these crates that begins with this one."""
    above = [it for it in crates if crate in LIBRARIES[it]]
    return minutes(crate, MOST_JOBS) + max((chain(it, crates) for it in above), default=0)


def bytes_of(crate, jobs):
    return BYTES.get(crate, BYTES_OF_OTHERS) + (jobs - 1) * BYTES_OF_JOB


class Schedule:
    """Crates that are to be proved: those that are left, and those that are being proved, with their jobs."""

    def __init__(self, left, running, processors, memory):
        self.left, self.running = [*left], {**running}
        self.processors, self.memory = processors, memory

    def begin(self):
        """Begins what can begin now, the longest chain first: each crate, and its jobs."""
        unproved = {*self.left, *self.running}
        ready = [it for it in self.left if not unproved & set(below(it))]
        for place, crate in enumerate(ready):
            if jobs := self.jobs_for(crate, len(ready) - place):
                self.left.remove(crate)
                self.running[crate] = jobs
                yield crate, jobs

    def jobs_for(self, crate, count):
        """The jobs of a crate that is the first of so many which could begin: the idle processors but one for each of
        the others, as far as memory reaches. None where it has to wait."""
        idle = self.processors - sum(self.running.values())
        free = self.memory - sum(bytes_of(it, jobs) for it, jobs in self.running.items())
        most = MOST_JOBS if MINUTES.get(crate, MINUTES_OF_OTHERS)[1] else 1
        jobs = max(min(1, idle), min(most, idle - (count - 1)))
        while jobs and bytes_of(crate, jobs) > free:
            jobs -= 1
        return jobs if self.running else max(1, jobs)

    def end(self, crate):
        del self.running[crate]

    def minutes_left(self, elapsed):
        """About how long the rest takes, where these minutes have gone by for those that are being proved."""
        plan = Schedule(self.left, self.running, self.processors, self.memory)
        ends, now = {it: minutes(it, jobs) - elapsed[it] for it, jobs in self.running.items()}, 0
        while plan.left or plan.running:
            ends |= {it: now + minutes(it, jobs) for it, jobs in plan.begin()}
            first = min(plan.running, key=ends.get)
            now = max(now, ends[first])
            plan.end(first)
        return now


def schedule_of(crates):
    """A schedule of these crates for this machine as it is."""
    left = sorted(crates, key=lambda it: -chain(it, crates))
    return Schedule(left, {}, len(os.sched_getaffinity(0)), free_memory())


class Progress:
    """What is said of a schedule as it goes on."""

    def __init__(self, schedule):
        self.schedule, self.count, self.begun = schedule, len(schedule.left), {}

    def minutes_left(self):
        elapsed = {it: (time.monotonic() - self.begun[it]) / 60 for it in self.schedule.running}
        return round(self.schedule.minutes_left(elapsed))

    def plan(self):
        how = f"{self.schedule.processors} processor{'s' * (self.schedule.processors > 1)}"
        say(f"osb-broker: {self.count} crates are to be proved, which takes about {self.minutes_left()} minutes on {how}")
        if above := sum(map(is_recorded, self.schedule.left)):
            say(f"osb-broker: {above} of them only if the libraries below come out other than they were")

    def begin(self, crate, jobs):
        self.begun[crate] = time.monotonic()
        if not is_kept(crate):
            say(f"{crate}: being proved{f', by {jobs} jobs' if jobs > 1 else ''}")

    def end(self, crate, said):
        done = self.count - len(self.schedule.left) - len(self.schedule.running)
        rest = f"about {self.minutes_left()} minutes are left" if done < self.count else "none is left"
        took = clock(time.monotonic() - self.begun[crate])
        say(f"{crate}: {count_in(said)} in {took}; {done} of {self.count} crates, {rest}")


def is_proved(crate, status, said):
    """Whether a crate's proof was found and kept; where not, it is said why."""
    if status:
        say(f"{said}\n{crate}: not proved")
    elif not is_kept(crate):
        say(f"{crate}: its files, or a library below it, were changed meanwhile")
    return not status and is_kept(crate)


def prove_all(crates, keeps=True):
    """Proves crates, each once those below it are proved, and maybe keeps what was checked. Whether all are."""
    schedule, proofs, well = schedule_of(crates), {}, True
    progress = Progress(schedule)
    progress.plan()
    with concurrent.futures.ThreadPoolExecutor(schedule.processors) as pool:
        while well and (schedule.left or schedule.running):
            for crate, jobs in schedule.begin():
                progress.begin(crate, jobs)
                proofs[pool.submit(prove, crate, jobs, keeps)] = crate
            for it in concurrent.futures.wait(proofs, return_when=concurrent.futures.FIRST_COMPLETED).done:
                crate = proofs.pop(it)
                schedule.end(crate)
                if well := well and is_proved(crate, *it.result()):
                    progress.end(crate, it.result()[1])
    return well


def place_program():
    """Puts the program that was linked at the top of the repository; one that runs there goes on."""
    new = made(PROGRAM).with_suffix(".new")
    shutil.copy(made(PROGRAM), new)
    os.replace(new, ROOT / "osb-broker")
    say(f"the program is {ROOT / 'osb-broker'}")


def take_libraries_away():
    """Takes all libraries away where one is of other sources: `rt ci` puts those that it finds back in the end, and they
    don't go together with its own."""
    if any(rlib(it).exists() and not is_kept(it) for it in LIBRARIES):
        for crate in LIBRARIES:
            shutil.rmtree(rlib(crate).parent, ignore_errors=True)


def take_linked(command):
    """Runs a command that proves all crates and links the program, and keeps that program. Gives its status."""
    # (the sums are asked for before the command begins, so that a change meanwhile is seen)
    sum_of(PROGRAM)
    take_libraries_away()
    status = subprocess.run(command, cwd=ROOT).returncode
    if status == 0:
        if not any(map(has_changed, [*below(PROGRAM), PROGRAM])):
            keep(PROGRAM)
        place_program()
    return status


def main(words):
    if words[:1] == ["--linked-by"]:
        return take_linked(words[1:])
    crates = [*below(PROGRAM), PROGRAM]
    if is_kept(PROGRAM):
        say(f"{PROGRAM}: proved and linked before, of the same sources")
    elif not prove_all([it for it in crates if not is_kept(it)], words == ["--keep"]):
        return 1
    place_program()
    return 0


if __name__ == "__main__":
    try:
        sys.exit(main(sys.argv[1:]))
    except KeyboardInterrupt:
        say("osb-broker: stopped; what was proved is kept")
        sys.exit(130)
