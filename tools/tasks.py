"""Commands that run beside each other: each in a process of its own, whose time of the processor is told."""
from __future__ import annotations

import os
import re
import subprocess
import sys
import threading
import time
from concurrent.futures import FIRST_COMPLETED, ThreadPoolExecutor, wait
from dataclasses import dataclass

import kit

# The kinds of tasks that may use several processors.
SHARED = ("proof", "tests")
# Those whose minutes docs/GATE.md has, and what a build takes about.
KINDS = ("proof", "tests", "edits")
BUILD = 5
# How many jobs the task has that the whole waits for. Each reads the crates below anew: two take a third more of the processor than one and a
# quarter less by the clock, four three times as much.
MOST_JOBS = 2
# How much commands lower their priority: a proof that isn't on the longest chain, and what isn't a proof.
PATIENCE, MORE_PATIENCE = 5, 10
# What a check was seen to take at most of the memory that the kit counts for it, and what each job more takes of that.
MEMORY, MEMORY_A_JOB = 0.65, 0.6


@dataclass
class Done:
    """What became of a command: its status (None: not run, since one that it waits for failed), its log, and its seconds."""

    status: int | None
    log: str
    seconds: float = 0.0
    processor: float = 0.0

    @property
    def is_well(self):
        return self.status == 0

    def said(self):
        with open(self.log, encoding="utf-8", errors="replace") as it:
            return it.read()


@dataclass
class Task:
    """A command of tools/, and the keys of those that it waits for. `kind` is `proof`, `tests`, a build's or a run's, or `edits I/N`."""

    crate: object
    kind: str
    words: list
    waits: list

    @property
    def key(self):
        return self.crate.name, self.kind

    @property
    def of(self):
        """The kind, without the part."""
        return self.kind.partition(" ")[0] if self.kind.startswith("edits") else self.kind

    @property
    def parts(self):
        """In how many parts the crate's are done."""
        return int(self.kind.partition("/")[2] or 1)


def run(words, log, patience):
    """Runs a command, whose priority is lowered so much; what it prints goes to the log."""
    begun = time.time()
    os.makedirs(os.path.dirname(log), exist_ok=True)
    with open(log, "wb") as out:
        started = subprocess.Popen(words, cwd=kit.ROOT, stdin=subprocess.DEVNULL, stdout=out, stderr=subprocess.STDOUT, preexec_fn=lambda: os.nice(patience))
        _, status, usage = os.wait4(started.pid, 0)
    started.returncode = os.waitstatus_to_exitcode(status)
    return Done(started.returncode, log, time.time() - begun, usage.ru_utime + usage.ru_stime)


def command(name, *words):
    """A command of this folder."""
    return [sys.executable, f"{kit.HERE}/{name}", *words]


def proof(crate, waits, more=()):
    """The proof of a crate, once those below it that are still to be proved are."""
    return Task(crate, "proof", command("prove", crate.name, *more), waits)


def minutes_of(crates, kind="proof"):
    """About how many minutes of the processor each crate's tasks of a kind take, by its name: as docs/GATE.md has them, else by its lines."""
    page = kit.rtlib.text_of(f"{kit.ROOT}/docs/GATE.md") or ""
    rows = re.findall(r"(?m)^\| `(\w+)` \| ([\d.]+) \| ([\d.]*) \| \d* \| ([\d.]*) \|", page)
    told = {name: dict(zip(("proof", "edits", "tests"), each)) for name, *each in rows}
    guess = lambda it: it.count(rb"\n") / 300
    return {it.name: float(told.get(it.name, {}).get(kind) or guess(it)) for it in crates}


class Lanes:
    """Runs tasks side by side, one a processor and one more, as many as memory holds; those first that the longest chain of others waits for. The
    first of all has more jobs than others, since the whole waits for it, and all others give way to it; mutants, tests and runs give way
    to all proofs."""

    def __init__(self, tasks, logs, tell):
        self.tasks = {it.key: it for it in tasks}
        self.logs, self.tell, self.given, self.running, self.telling = logs, tell, {}, {}, threading.Lock()
        fixed = os.environ.get("RT_JOBS", "")
        # One more than processors: a command waits for its files now and then, and a host takes processors away.
        self.lanes = int(fixed) if fixed.isdigit() and fixed != "0" else kit.rt.processors() + 1
        self.memory = 0.85 * kit.rt.free()
        minutes = {kind: minutes_of([it.crate for it in tasks], kind) for kind in KINDS}
        self.behind = {}
        for key in reversed(self.in_order()):
            task = self.tasks[key]
            own = minutes[task.of][task.crate.name] / task.parts if task.of in KINDS else BUILD if "build" in key[1] else 0.1
            self.behind[key] = own + max([self.behind[other] for other, it in self.tasks.items() if key in it.waits], default=0)

    def in_order(self):
        """The keys, each behind those that it waits for."""
        order, seen = [], set()

        def visit(key):
            if key not in seen and key in self.tasks:
                seen.add(key)
                for it in self.tasks[key].waits:
                    visit(it)
                order.append(key)

        for key in self.tasks:
            visit(key)
        return order

    def call(self, task, jobs, patience):
        log = f"{self.logs}/{task.crate.name}.{task.kind.replace(' ', '-').replace('/', '-of-')}.log"
        if all(it not in self.given or self.given[it].is_well for it in task.waits):
            done = run([*task.words, "--jobs", str(jobs)] if task.kind in SHARED else task.words, log, patience)
        else:
            done = Done(None, log)
        with self.telling:
            self.tell(task, done)
        return done

    def jobs_for(self, task):
        """How many processors the task may use: more than one only where all tasks that are left end before it, whatever else runs."""
        return MOST_JOBS if task.kind in SHARED and self.lanes > 2 and self.is_first(task) else 1

    def is_first(self, task):
        """Whether no other task that is left has a longer chain behind it."""
        return self.behind[task.key] >= max(self.behind[it] for it in self.tasks if it not in self.given)

    def patience_of(self, task):
        return MORE_PATIENCE if task.kind != "proof" else 0 if self.is_first(task) else PATIENCE

    def memory_for(self, task, jobs):
        return kit.rt.need(task.crate) * MEMORY * (1 + MEMORY_A_JOB * (jobs - 1))

    def start(self, pool, left):
        """Starts what can be started now."""
        ready = [it for it in left if all(key in self.given or key not in self.tasks for key in self.tasks[it].waits)]
        for key in ready:
            task = self.tasks[key]
            # However many jobs a task has, some of them end early: it leaves room for two tasks beside it.
            idle = self.lanes - sum(min(jobs, max(1, self.lanes - 2)) for _, jobs, _ in self.running.values())
            if idle <= 0:
                return
            jobs = self.jobs_for(task)
            room = self.memory - sum(it for _, _, it in self.running.values())
            while jobs > 1 and self.memory_for(task, jobs) > room:
                jobs -= 1
            if self.running and self.memory_for(task, jobs) > room:
                continue
            left.remove(key)
            self.running[pool.submit(self.call, task, jobs, self.patience_of(task))] = key, jobs, self.memory_for(task, jobs)

    def all_run(self):
        left = sorted(self.tasks, key=lambda it: -self.behind[it])
        with ThreadPoolExecutor(self.lanes) as pool:
            while left or self.running:
                self.start(pool, left)
                for it in wait(self.running, return_when=FIRST_COMPLETED).done:
                    key, _, _ = self.running.pop(it)
                    self.given[key] = it.result()
        return self.given


def run_all(tasks, logs, tell=lambda task, done: None):
    """Runs tasks side by side on all processors. What each came to, by its key."""
    return Lanes(tasks, logs, tell).all_run()
