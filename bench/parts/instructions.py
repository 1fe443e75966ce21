"""Counts instructions of farm and farmd by callgrind, without the C library's clearing: instructions.py FOLDER [--check]."""
import collections
import os
import re
import subprocess
import sys

from checks import expect, failures

FOLDER, IS_CHECK = sys.argv[1], "--check" in sys.argv[2:]
FARM, FARMD = os.environ["FARM"], os.environ["FARMD"]
PORT = 14832
CLEARING = re.compile(r"memset|bzero")

# Thousands of instructions that --check lets a thing take: a tenth above its aim.
LIMITS = {
    "farm --version": 264,
    "farm cc of a command that stays here": 825,
    "farm cc of a compile at a farmd": 825,
    "a job of a local list": 165,
    "a connection of farmd": 165,
}
# The same on every machine, since a program reads its whole environment.
ENVIRONMENT = {"PATH": os.environ["PATH"], "TMPDIR": "/dev/shm"}


class Count:
    """The instructions of a run by function."""

    def __init__(self, path):
        self.by_function = collections.Counter()
        names, function, is_call = {}, None, False
        with open(path, encoding="utf-8", errors="replace") as file:
            for line in file:
                found = re.match(r"(c?)fn=\((\d+)\)(?: (.*))?$", line)
                if found:
                    if found[3]:
                        names[found[2]] = found[3]
                    if not found[1]:
                        function = names.get(found[2], found[2])
                elif line.startswith("calls="):
                    is_call = True
                elif line[:1] in "0123456789+-*" and function:
                    if not is_call:
                        self.by_function[function] += int(line.split()[1])
                    is_call = False

    def minus(self, other, times):
        """What each of these times costs, between two runs."""
        self.by_function = collections.Counter({name: (cost - other.by_function[name]) // times for name, cost in self.by_function.items()})
        return self

    def total(self, clearing):
        return sum(cost for name, cost in self.by_function.items() if bool(CLEARING.search(name)) == clearing)

    def most(self):
        return [(name, cost) for name, cost in self.by_function.most_common() if not CLEARING.search(name)][:10]


def counted(words, number=0, **more):
    """The count of a run of the program itself, and not of what it starts."""
    path = f"{FOLDER}/callgrind.{number}"
    command = ["valgrind", "--tool=callgrind", f"--callgrind-out-file={path}", *words]
    environment = {**ENVIRONMENT, **more.pop("env", {})}
    return path, subprocess.Popen(command, cwd=FOLDER, env=environment, stderr=subprocess.DEVNULL, stdout=subprocess.DEVNULL, **more)


def ran(words, **more):
    path, process = counted(words, **more)
    process.wait()
    return Count(path)


def listed(jobs):
    """A build of N jobs here, one after another."""
    text = "".join(f"{FOLDER}/writes -c {FOLDER}/x.i -o {FOLDER}/x{number}.o\n" for number in range(jobs))
    with open(f"{FOLDER}/jobs", "w", encoding="utf-8") as file:
        file.write(text)
    with open(f"{FOLDER}/jobs", encoding="utf-8") as file:
        return ran([FARM, "build", "--workers", "1", "--hosts", "localhost/1"], stdin=file)


def served(connections):
    """A farmd of one door that serves N connections, and then ends."""
    words = ["--listen", "127.0.0.1", "--port", str(PORT), "--jobs", "1", "--serve", str(connections), "--compiler", f"writes={FOLDER}/writes"]
    path, process = counted([FARMD, *words], number=1)
    environment = {**os.environ, "DISTCC_HOSTS": f"127.0.0.1:{PORT}", "DISTCC_FALLBACK": "0", "FARM_NOTICES": "0", "TMPDIR": "/dev/shm"}
    done = 0
    while done < connections and process.poll() is None:
        run = subprocess.run([FARM, "cc", "writes", "-c", "x.i", "-o", "y.o"], cwd=FOLDER, env=environment, capture_output=True)
        done += run.returncode == 0
    try:
        process.wait(60)
    except subprocess.TimeoutExpired:
        process.kill()
        sys.exit("farmd didn't get the compiles that it should serve")
    return Count(path)


def main():
    with open(f"{FOLDER}/writes", "w", encoding="utf-8") as file:
        file.write('#!/bin/sh\nfor output; do :; done\nhead -c 1024 /dev/zero >"$output"\n')
    os.chmod(f"{FOLDER}/writes", 0o755)
    with open(f"{FOLDER}/x.i", "w", encoding="utf-8") as file:
        file.write('# 1 "x.c"\nint x;\n')  # with a line mark, else it isn't sent
    at = {"DISTCC_HOSTS": f"127.0.0.1:{PORT}", "DISTCC_FALLBACK": "0"}
    farmd = subprocess.Popen([FARMD, "--listen", "127.0.0.1", "--port", str(PORT), "--compiler", f"writes={FOLDER}/writes"], stderr=subprocess.PIPE, cwd=FOLDER)
    while b"listens" not in farmd.stderr.readline():
        pass
    counts = {
        "farm --version": ran([FARM, "--version"]),
        "farm cc of a command that stays here": ran([FARM, "cc", "/bin/true", "-E", "x.c"], env={"DISTCC_HOSTS": ""}),
        "farm cc of a compile at a farmd": ran([FARM, "cc", "writes", "-c", "x.i", "-o", "z.o"], env=at),
    }
    farmd.kill()
    farmd.wait()
    counts["a job of a local list"] = listed(40).minus(listed(10), 30)
    counts["a connection of farmd"] = served(30).minus(served(10), 20)
    for what, count in counts.items():
        print(f"{what}: {count.total(False) // 1000} thousand, and {count.total(True) // 1000} to clear memory")
        for name, cost in count.most():
            print(f"  {cost:>9} {name[:110]}")
        if IS_CHECK:
            expect(what, count.total(False) <= 1000 * LIMITS[what], f"{count.total(False)} instructions")
    return 1 if failures else 0


if __name__ == "__main__":
    sys.exit(main())
