"""Proves and builds the program `omega`, crates side by side, where it is not built or older than its sources.

    python3 make/build.py            as many crates at once as there are processors, and 2.5 GB of free memory each
    JOBS=2 python3 make/build.py     two at most

Each crate is proved from nothing, over the statements of those below it. These are kept, in
`crates/omega_tool/out/rlib`, so a build that was interrupted goes on with the crates that are left. A crate is proved
again where its files changed, or the statements of a crate below it.
"""

import fcntl
import os
import signal
import subprocess
import sys
import time

from crates import ROOT, Crate, NotBuilt, crates_for, is_stale
from kept import LIBRARIES, OUT, PROGRAM, TOOL, beside, inputs_of, keep, record_of, still_given
from kit import Kit
from progress import Progress, chains, say

FAILED, INTERRUPTED = 70, 130
# What a proof takes at most, in bytes. The most that was seen: 2.3 billion, for `omega_text`.
NEED = 2_500_000_000
# More jobs seldom make a proof faster.
MOST_JOBS = 8
# What compiling the program takes beside its proof, in seconds.
COMPILING = 100


def free_memory() -> int:
    """The free memory in bytes, also under the limit of a control group."""
    with open("/proc/meminfo", encoding="ascii") as lines:
        free = next(1024 * int(line.split()[1]) for line in lines if line.startswith("MemAvailable:"))
    try:
        with open("/sys/fs/cgroup/memory.max", encoding="ascii") as limit:
            most = int(limit.read())
        with open("/sys/fs/cgroup/memory.stat", encoding="ascii") as lines:
            return min(free, most - next(int(line.split()[1]) for line in lines if line.startswith("anon ")))
    except (OSError, ValueError, StopIteration):
        return free


def lanes_here() -> int:
    """How many processors are to be used."""
    asked = os.environ.get("JOBS", "")
    if asked:
        if not asked.isdecimal() or int(asked) < 1:
            raise NotBuilt(f"JOBS is {asked!r}, and not a number from 1 on")
        return int(asked)
    free = free_memory()
    if free < NEED:
        raise NotBuilt(f"a proof takes up to {NEED / 1e9} GB of memory, and {free / 1e9:.1f} GB are free; "
                       "`make JOBS=1` tries it all the same")
    return min(len(os.sched_getaffinity(0)), free // NEED)


class Proof:
    """A crate that is being proved."""

    def __init__(self, crate: Crate, inputs: str, jobs: int, process: subprocess.Popen[bytes]) -> None:
        self.crate, self.inputs, self.jobs, self.process = crate, inputs, jobs, process
        self.begun = time.monotonic()

    def took(self) -> float:
        return time.monotonic() - self.begun


class Build:
    """What is proved, what is being proved, and what is left. `held` is the lock."""

    def __init__(self, kit: Kit, crates: dict[str, Crate], lanes: int, held: int) -> None:
        self.kit, self.crates, self.lanes, self.held = kit, crates, lanes, held
        # By crate, the sum of what its proof made.
        self.gave: dict[str, str] = {}
        self.running: list[Proof] = []
        self.has_failed = False
        # By crate, what its proof is foreseen to take.
        self.seconds = {name: record_of(name).get("seconds") or it.seconds() + COMPILING * (name == TOOL)
                        for name, it in crates.items()}
        self.chains, self.progress = chains(crates, self.seconds), Progress(crates, self.seconds)

    def inputs(self, crate: Crate) -> str:
        return inputs_of(crate, self.kit.identity, self.gave)

    def ready(self) -> list[Crate]:
        """The crates whose turn it is, those with the longest chain above them first. What is kept is passed over."""
        busy, found = {it.crate.name for it in self.running}, []
        for name, crate in self.crates.items():
            if name in busy or name in self.gave or not all(it in self.gave for it in crate.below):
                continue
            gave = still_given(name, self.inputs(crate))
            if gave:
                self.gave[name] = gave
            else:
                found.append(crate)
        return sorted(found, key=lambda it: -self.chains[it.name])

    def start_some(self) -> None:
        """Starts what there are processors for, and shares these out by what each proof is foreseen to take: a short
        one that ran beside a long one would leave its processor idle for the rest of it."""
        ready = self.ready()
        for at, crate in enumerate(ready):
            idle = self.lanes - sum(it.jobs for it in self.running)
            if idle < 1:
                return
            share = idle * self.seconds[crate.name] / sum(self.seconds[it.name] for it in ready[at:])
            self.running.append(self.start(crate, min(max(1, round(share)), MOST_JOBS)))

    def start(self, crate: Crate, jobs: int) -> Proof:
        words = self.kit.compiling if crate.name == TOOL else self.kit.proving
        inputs = self.inputs(crate)
        with open(beside(crate.name, "said"), "wb") as out:
            # It holds the lock too: where this process is killed, the next start waits for what it left behind.
            process = subprocess.Popen(words(crate, LIBRARIES, jobs, beside(crate.name, "new")), cwd=crate.folder,
                                       stdin=subprocess.DEVNULL, stdout=out, stderr=out, start_new_session=True,
                                       pass_fds=[self.held])
        return Proof(crate, inputs, jobs, process)

    def finish(self, proof: Proof) -> None:
        """Keeps what was proved, or shows why it is not. What changed while it was proved, or was killed for want of
        memory, has its turn again."""
        name, status = proof.crate.name, proof.process.returncode
        with open(beside(name, "said"), encoding="utf-8", errors="replace") as file:
            said = file.read()
        if status == -signal.SIGKILL and self.lanes > 1:
            self.lanes = 1
            self.progress.clear()
            say(f"the proof of {name} was killed, most likely for want of memory; going on with one at a time")
        elif status == -signal.SIGKILL:
            self.fail(name, f"{said}omega: the proof was killed, most likely for want of memory\n")
        elif status:
            self.fail(name, said)
        elif fault := self.kit.proof_fault(said):
            self.fail(name, f"{said}omega: {fault}\n")
        elif proof.inputs == self.inputs(proof.crate) and (name != TOOL or self.link()):
            self.progress.add(name, proof.took())
            self.gave[name] = keep(name, proof.inputs, proof.took())

    def link(self) -> bool:
        """Links the program, and tries it."""
        made, linked = beside(TOOL, "new"), beside(TOOL, "linked")
        ran = subprocess.run(self.kit.linking(made, linked), stdin=subprocess.DEVNULL, capture_output=True, text=True)
        if ran.returncode:
            self.fail(TOOL, ran.stdout + ran.stderr)
            return False
        with open(os.path.join(ROOT, "examples", "two_nodes.pg"), "rb") as game:
            tried = subprocess.run([linked, "check", "--format", "pg"], stdin=game, capture_output=True)
        if (tried.returncode, tried.stdout) != (0, b"accepted\n"):
            self.fail(TOOL, "omega: the program that was built does not accept examples/two_nodes.pg\n")
            return False
        os.replace(linked, made)
        return True

    def fail(self, name: str, said: str) -> None:
        self.has_failed = True
        self.progress.clear()
        sys.stderr.write(said)
        say(self.kit.explained(f"{name} is not proved and built"))
        others = ", ".join(it.crate.name for it in self.running if it.process.poll() is None)
        if others:
            say(f"waiting for what is being proved, which is kept: {others}")

    def run(self) -> bool:
        """Proves all that is left, and builds the program. Whether all went well."""
        try:
            self.start_some()
            while self.running:
                ended = [it for it in self.running if it.process.poll() is not None]
                self.running = [it for it in self.running if it not in ended]
                for proof in ended:
                    self.finish(proof)
                if ended and not self.has_failed:
                    self.start_some()
                if not ended:
                    time.sleep(0.2)
                ran = {it.crate.name: it.took() for it in self.running}
                self.progress.show(set(self.gave), ran, self.lanes)
        finally:
            self.progress.clear()
            for proof in self.running:
                os.killpg(proof.process.pid, signal.SIGKILL)
                proof.process.wait()
        return not self.has_failed


def lock() -> int:
    """Waits until nothing else builds here. As the toolchain's locks, it is on a folder, and ends with the process."""
    held = os.open(os.path.dirname(OUT), os.O_RDONLY)
    try:
        fcntl.flock(held, fcntl.LOCK_EX | fcntl.LOCK_NB)
    except BlockingIOError:
        say("another start is proving and building the program; waiting for it")
        fcntl.flock(held, fcntl.LOCK_EX)
    except OSError:
        # Some file systems have no locks.
        pass
    return held


def built() -> bool:
    """Builds the program where that is needed. Whether it is there."""
    held = lock()
    # It may be built by now.
    if not is_stale(PROGRAM):
        return True
    kit, crates, lanes = Kit.found(), crates_for(TOOL), lanes_here()
    os.makedirs(LIBRARIES, exist_ok=True)
    # The program gets the time of its beginning: what changes while it is proved is newer than it.
    with open(beside(TOOL, "begun"), "w", encoding="ascii"):
        began, begun = os.stat(beside(TOOL, "begun")).st_mtime_ns, time.monotonic()
    build = Build(kit, crates, lanes, held)
    is_work = bool(build.ready())
    if is_work:
        kit.tell()
        say(f"proving and building the program, up to {lanes} crates at once; this takes minutes, and is kept")
    if not build.run():
        return False
    os.utime(PROGRAM, ns=(began, began))
    if is_work:
        took = int(time.monotonic() - begun)
        say(f"proved and built in {took // 60} min {took % 60} s")
    return True


def interrupt(*_: object) -> None:
    raise KeyboardInterrupt


def main() -> int:
    for it in (signal.SIGTERM, signal.SIGHUP):
        signal.signal(it, interrupt)
    try:
        return 0 if built() else FAILED
    except (NotBuilt, OSError) as why:
        say(str(why))
        return FAILED
    except KeyboardInterrupt:
        say("interrupted; run it again to resume")
        return INTERRUPTED


if __name__ == "__main__":
    sys.exit(main())
