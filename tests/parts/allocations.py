"""Runs programs with one allocation refused, by refuse.c: for some numbers, spread over all of them, or with --every for each."""
import os
import shutil
import subprocess
import sys
import tempfile
import time
from collections import Counter

from checks import expect, fail, verdict, write

REFUSE, RUNS, FARM = sys.argv[1:4]
EVERY = "--every" in sys.argv
SECONDS = 30
USUAL, WANTING, OWN = "as usual", "memory wanting", "refused to the program's own part"


def run(words, **more):
    environment = {"PATH": os.environ["PATH"], "TMPDIR": tempfile.gettempdir(), "DISTCC_HOSTS": "localhost/1", "DISTCC_FALLBACK": "0", "LD_PRELOAD": REFUSE, **more}
    return subprocess.run(words, env=environment, stdin=subprocess.DEVNULL, capture_output=True, timeout=60)


def count(words):
    """How many allocations a run makes at most; with several workers it depends on their schedule."""
    return max(int(run(words, COUNTED="1").stderr.split()[-1]) for _ in range(5))


def judged(seen):
    """How a run of devices in memory ended, which judges itself; None if it ended as it may not."""
    if seen.stdout:
        return None
    return {0: USUAL, 105: WANTING, 1: OWN if b"error:" in seen.stderr.lower() else None}.get(seen.returncode)


def rehearsed(usual):
    """How a rehearsal ended that prints this with ample memory."""

    def end(seen):
        if seen.returncode == 0 and seen.stdout == usual:
            return USUAL
        if seen.returncode == 105 and usual.startswith(seen.stdout) and seen.stderr == b"farm: no memory\n":
            return WANTING
        words_lost = seen.returncode == 101 and b"farm: bad words at word 0\n" in seen.stderr
        return OWN if words_lost or seen.returncode == 1 and b"error:" in seen.stderr.lower() else None

    return end


# a compiler whose own allocations aren't refused: it is linked statically, so that nothing is loaded into it, and then begins anew
BARE = """#include <stdlib.h>
#include <unistd.h>
int main(int count, char **words) {
  unsetenv("LD_PRELOAD");
  words[0] = "%s";
  return execv(words[0], words);
}
"""


class Compile:
    """One command by farm over the disk, in a folder of its own. Of all that runs, only farm is refused allocations."""

    def __init__(self, folder):
        os.chdir(folder)
        tempfile.tempdir = os.path.join(folder, "own")
        os.mkdir(tempfile.tempdir)
        os.mkdir("bin")
        write("bin/bare.c", BARE % shutil.which("gcc"))
        bare = ["cc", "-static", "bin/bare.c", "-o", "bin/gcc"]
        self.is_built = subprocess.run(bare, stderr=subprocess.DEVNULL).returncode == 0
        write("a.c", "int f(int x) { return x; }\n")
        subprocess.run(["gcc", "-c", "a.c", "-o", "whole.o"], check=True)
        with open("whole.o", "rb") as file:
            self.whole = file.read()
        os.environ["PATH"] = os.path.join(folder, "bin") + ":" + os.environ["PATH"]
        self.words = [FARM, "cc", "gcc", "-c", "a.c", "-o", "a.o"]

    def end(self, seen):
        """How a run ended: with the whole object, or with none, and nothing of farm's own left. What was put stays, whatever comes then."""
        left = [name for name in [*os.listdir("."), *os.listdir(tempfile.tempdir)] if name.startswith("farm-")]
        found = None
        if os.path.exists("a.o"):
            with open("a.o", "rb") as file:
                found = file.read()
            os.remove("a.o")
        for name in left:
            os.remove(name if os.path.exists(name) else os.path.join(tempfile.tempdir, name))
        if left or found not in (None, self.whole):
            return None
        if seen.returncode == 0:
            return USUAL if found else None
        return "no object" if found is None else "the object, and memory wanting behind it"


def numbers(most):
    """The numbers of the allocations to refuse: each, or steps of the golden section, which lie apart however many there is time for."""
    if EVERY:
        yield from range(1, most + 1)
        return
    for step in range(most):
        yield 1 + int(most * (step * 0.6180339887498949 % 1))


def refuse(name, words, end):
    """Refuses none that is made, and then one after another."""
    most = count(words)
    expect(f"{name}: allocations are seen", most)
    if end(run(words, REFUSED=str(2 * most))) != USUAL:
        fail(f"{name}: with no allocation refused")
    begun = time.monotonic()
    ends = Counter()
    for number in numbers(most):
        if not EVERY and time.monotonic() - begun > SECONDS:
            break
        try:
            seen = run(words, REFUSED=str(number))
            how = end(seen)
        except subprocess.TimeoutExpired:
            seen, how = "no end", None
        ends[how] += 1
        if how is None:
            fail(f"{name}: with allocation {number} refused: {seen}")
    told = ", ".join(f"{how} {times}" for how, times in ends.items() if how)
    print(f"{name}: {most} allocations, {sum(ends.values())} refused in {time.monotonic() - begun:.0f} s: {told}")


for name in ("daemon", "one", "four", "graph"):
    refuse(name, [RUNS, name], judged)
usual = run([FARM, "rehearse", "2"])
if usual.returncode != 0:
    fail(f"farm rehearse 2: {usual}")
else:
    refuse("farm rehearse 2", [FARM, "rehearse", "2"], rehearsed(usual.stdout))
if shutil.which("gcc"):
    with tempfile.TemporaryDirectory() as folder:
        job = Compile(folder)
        if job.is_built:
            refuse("farm cc over the disk", job.words, job.end)
        else:
            print("farm cc over the disk: skipped, since no program can be linked statically here")
        os.chdir("/")
else:
    print("farm cc over the disk: skipped, since gcc is missing")
verdict("tests/allocations")
