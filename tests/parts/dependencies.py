"""Compares the dependency files of `farm cc` with those of the compiler itself: dependencies.py FARM [--all]. Each command is run twice in a new folder, once
by itself and once after `farm cc`, as a job of this machine, and has to leave the same files of the same text, objects left out."""
import concurrent.futures
import itertools
import os
import shutil
import subprocess
import sys
import tempfile

from checks import end, expect, fail, write

FARM = sys.argv[1]
IS_ALL = "--all" in sys.argv

OUTPUTS = [[], ["-o", "x.o"], ["-oobj/x.o"], ["-o", "obj/deep/x.y.o"], ["-o", "obj.d/x"], ["-o", "obj/.x"], ["-o", "obj/a b$c#.o"], ["-oout"],
           ["-o", "./obj/../x.o"]]
LISTS = [["-MD"], ["-MMD"], ["-MD", "-MMD"]]
FILES = [[], ["-MF", "obj/f.dep"], ["-MFobj/f.dep"], ["-MF", "f.dep", "-MFobj/g.dep"]]
TARGETS = [[], ["-MT", "t $u"], ["-MQ", "t $u"], ["-MTa", "-MQ", "$b"]]
PHONY = [[], ["-MP"]]
ACTIONS = ["-c", "-S"]
SOURCES = {"gcc": ["src/y.c", "x.c", "src/a b$c.c"], "g++": ["src/y.cc", "src/#n.cc"], "clang": ["src/y.c"], "clang++": ["src/y.cc"]}


def tree(folder):
    for path in ("src", "obj/deep", "obj.d"):
        os.makedirs(os.path.join(folder, path))
    for name in ("x.c", "src/y.c", "src/y.cc", "src/a b$c.c", "src/two.dots.c", "src/#n.cc"):
        write(os.path.join(folder, name), f'#include "{"" if "/" in name else "src/"}h.h"\nint f(void) {{ return H; }}\n')
    write(os.path.join(folder, "src/h.h"), "#define H 1\n")


def texts(folder):
    """The files below a folder that are no objects, with their texts, and the names of those that are."""
    found = {}
    for at, _, names in os.walk(folder):
        for name in names:
            path = os.path.join(at, name)
            with open(path, "rb") as file:
                text = file.read()
            is_object = text.startswith(b"\x7fELF") or b"\t.file" in text
            found[os.path.relpath(path, folder)] = b"an object" if is_object else text
    return found


def left(words):
    """Whether a command succeeds in a new folder, and the files that it leaves."""
    with tempfile.TemporaryDirectory() as folder:
        tree(folder)
        run = subprocess.run(words, cwd=folder, stdin=subprocess.DEVNULL, stdout=subprocess.DEVNULL, stderr=subprocess.DEVNULL, check=False)
        return run.returncode == 0, texts(folder)


def combinations(compiler):
    sources = SOURCES[compiler]
    for lists, file, target, phony, output, action, source in itertools.product(LISTS, FILES, TARGETS, PHONY, OUTPUTS, ACTIONS, sources):
        rare = [lists != LISTS[0], bool(phony), source != sources[0], file not in FILES[:2], target not in TARGETS[:2], action == "-S", output in OUTPUTS[4:]]
        if IS_ALL or sum(rare) <= 1:
            yield [compiler, *lists, *phony, action, source, *file, *target, *output]


def other_shapes(compiler):
    """Options elsewhere, operands that look like options, and options that another one passes on."""
    for line in ("-c x.c -o obj/x.o", "-o obj/x.o -MMD -c src/y.c", "-D -MF -MD -c x.c -o obj/x.o", "-DX -I -MT -MD -c x.c -o obj/x.o",
                 "-MD -MF -MT -c x.c -o obj/x.o", "-MD -c x.c -o -MF", "-MMD -c src/two.dots.c -o obj/two.dots.o", "-MMD -c src/two.dots.c",
                 "-MD -Wp,-MT,t -c x.c -o obj/x.o", "-MD -MD -c x.c -o obj/x.o", "-MMD -MF obj/no/f.d -c x.c -o obj/x.o"):
        yield [compiler, *line.split(" ")]
    yield [compiler, "-MD", "-MT", "", "-c", "x.c", "-o", "obj/x.o"]


def compare(words):
    """Whether the compiler succeeds, and what differs."""
    want, got = left(words), left([FARM, "cc", *words])
    if want[0] != got[0] or (want[0] and want[1] != got[1]):
        differing = [name for name in {**want[1], **got[1]} if want[1].get(name) != got[1].get(name)]
        return want[0], f"{words}: {want[0]} {got[0]} {[(name, want[1].get(name), got[1].get(name)) for name in differing]}"
    return want[0], None


def main():
    with concurrent.futures.ThreadPoolExecutor(len(os.sched_getaffinity(0))) as pool:
        for compiler in SOURCES:
            if shutil.which(compiler) is None:
                print(f"tests/dependencies: not compared, since it is missing: {compiler}")
                continue
            commands = [*combinations(compiler), *other_shapes(compiler)]
            seen = list(pool.map(compare, commands))
            faults = [fault for _, fault in seen if fault]
            expect(f"{compiler} compiles", any(succeeds for succeeds, _ in seen))
            print(f"{compiler}: {len(commands)} commands, {len(faults)} wrong")
            for fault in faults[:5]:
                fail(fault)
    end()


main()
