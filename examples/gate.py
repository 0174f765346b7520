"""`rt ci`, and how far it is: what `examples/build` and `examples/count` run."""

import glob
import os
import re
import selectors
import signal
import subprocess
import sys
import time

BEGUN = re.compile(r"== (\w+)(?:: its tests)?$")
DONE = re.compile(r"rt: (\w+)(: its tests are)? (?:proved$|is kept)")
# how many seconds pass at most before it is told again what runs
PATIENCE = 60


def ended(process):
    """Ends a process and all that it started."""
    if process.poll() is None:
        os.killpg(process.pid, signal.SIGTERM)
        try:
            process.wait(10)
        except subprocess.TimeoutExpired:
            os.killpg(process.pid, signal.SIGKILL)
            process.wait()


def processes():
    """Each process that runs: its parent, and its words."""
    for path in glob.glob("/proc/[0-9]*"):
        try:
            with open(f"{path}/stat", "rb") as stat, open(f"{path}/cmdline", "rb") as words:
                # behind the name, which may have blanks: the state, then the parent
                parent = int(stat.read().rpartition(b")")[2].split()[1])
                yield int(os.path.basename(path)), parent, words.read().decode(errors="replace").split("\0")
        except OSError:
            # it has ended
            pass


def running(top):
    """The crates that are proved now, by what a process started: the provers have them on their command lines."""
    parents, crates = {}, {}
    for number, parent, words in processes():
        parents[number] = parent
        if "--crate-name" in words[:-1]:
            crates[number] = words[words.index("--crate-name") + 1]
    found = set()
    for number, crate in crates.items():
        while number in parents and number != top:
            number = parents[number]
        if number == top:
            found.add(crate)
    return sorted(found)


class Progress:
    """What is told of a run over so many crates: each that is done, what runs now, and all that was said of
    those that are not proved. What is said beside crates goes to `tell_other`."""

    def __init__(self, crates, tell_other):
        self.crates, self.done, self.start = crates, 0, time.monotonic()
        self.tell_other = tell_other
        self.block = None

    def tell(self, what, top):
        minutes, seconds = divmod(round(time.monotonic() - self.start), 60)
        now = " ".join(running(top))
        print(f"{what}; {self.done} of {self.crates} crates, {minutes} min {seconds:02} s{'; now ' + now if now else ''}", flush=True)

    def take(self, line, top):
        done = DONE.match(line)
        if BEGUN.match(line):
            self.block = [line]
        elif done:
            self.block = None
            self.done += not done[2]
            self.tell(line.removeprefix("rt: ").partition(":" if " is kept" in line else "\n")[0], top)
        elif self.block is None:
            self.tell_other(line)
        else:
            self.block.append(line)
            # the last line of a crate that is not proved
            if re.match(r"rt: \w+(: its tests are)? NOT PROVED", line):
                print("\n".join(self.block), flush=True)
                self.block = None


def pieces(process, progress):
    """What a process prints, as it comes; what runs is told where nothing comes for long."""
    selector = selectors.DefaultSelector()
    selector.register(process.stdout, selectors.EVENT_READ)
    while True:
        if not selector.select(PATIENCE):
            progress.tell("at work", process.pid)
            continue
        piece = os.read(process.stdout.fileno(), 65536)
        if not piece:
            return
        yield piece


def tell(line):
    print(line, flush=True)


def gate(folder, crates, environment, tell_other=tell):
    """Runs `rt ci` in a folder of so many crates; its status, and the last of its lines."""
    # a session of its own, so that what ends this can end all of it
    process = subprocess.Popen(
        ["rt", "ci"],
        cwd=folder,
        env=environment,
        start_new_session=True,
        stdin=subprocess.DEVNULL,
        stdout=subprocess.PIPE,
        stderr=subprocess.STDOUT,
    )
    signal.signal(signal.SIGTERM, lambda *_: sys.exit(1))
    progress, rest, last = Progress(crates, tell_other), b"", ""
    try:
        for piece in pieces(process, progress):
            *lines, rest = (rest + piece).split(b"\n")
            for line in lines:
                last = line.decode(errors="replace")
                progress.take(last, process.pid)
        return process.wait(), last
    finally:
        ended(process)
