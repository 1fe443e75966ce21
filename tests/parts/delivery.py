"""Objects on a real disk, by a host of this script's own that answers in protocol 1 of distcc.

A source is a number and a letter, as `30000000 B`: its object has that many bytes of this letter. FARM names the program, and ROUNDS how often
two compilers run at once of which one takes its output away.
"""
import os
import random
import shutil
import subprocess
import time

from checks import expect, verdict, work_folder, write, write_program
from farm import FARM, content, file_limit, job, leftovers, make_folder, remove_leftovers, start_farm
from peaks import Peak
from wire import read_request, reply_head, start_host

MIB = 1048576
COMPILER = '#!/bin/sh\ncat "$2"\n'
SOURCES = [("small.c", 1, "S"), ("large.c", 30 * MIB, "L"), ("other.c", 30 * MIB, "M"), ("most.c", 32 * MIB, "T")]


def serve(link):
    """Reads one request, and answers the object that its source asks for."""
    source = read_request(link).split()
    size, letter = int(source[0]), source[1]
    link.sendall(reply_head(size))
    piece = letter * 65536
    while size:
        size -= link.send(piece[: min(size, len(piece))])


def run(folder, jobs, **more):
    """The status of a build, what it printed, and its largest resident size."""
    child = start_farm(folder, jobs, PORT, "--no-fallback", **more)
    peak = Peak(child.pid)
    text = child.stdout.read().decode()
    return child.wait(), text, peak.kib() * 1024


def resident_sizes(folder):
    _, _, least = run(folder, job("small.c", "small.o"))
    status, text, most = run(folder, job("most.c", "most.o"))
    expect("the largest object", status == 0 and content(f"{folder}/most.o") == ("T", 32 * MIB), text)
    print(f"resident size: {least // 1024} KiB for an object of 1 byte, {most // 1024} KiB for one of 32 MiB")
    expect("a large object isn't kept in memory", 0 < most <= least + 4 * MIB, (least, most))


def whole_or_old(folder, before):
    return content(f"{folder}/x.o") in (before, ("L", 30 * MIB))


def killed_in_a_put(folder, times):
    write(f"{folder}/x.o", "oooo")
    begun = time.monotonic()
    run(folder, job("large.c", "y.o"))
    length = time.monotonic() - begun
    left = 0
    for _ in range(times):
        child = start_farm(folder, job("large.c", "x.o"), PORT, "--no-fallback")
        time.sleep(random.uniform(0, length))
        child.kill()
        child.stdout.read()
        child.wait()
        expect("a killed farm leaves the output old or whole", whole_or_old(folder, ("o", 4)))
        left += remove_leftovers(folder)
    status, text, _ = run(folder, job("large.c", "x.o"))
    expect("a run after killed ones", status == 0 and content(f"{folder}/x.o") == ("L", 30 * MIB), text)
    print(f"killed {times} times: {left} files were left")


def two_at_once(folder, times):
    for number in range(times):
        first = start_farm(folder, job("large.c", "z.o"), PORT, "--no-fallback")
        second = start_farm(folder, job("other.c", "./z.o" if number % 2 else "z.o"), PORT, "--no-fallback")
        for child in (first, second):
            child.stdout.read()
            expect("each of two at one output succeeds", child.wait() == 0)
        expect("two at one output leave one of the two", content(f"{folder}/z.o") in (("L", 30 * MIB), ("M", 30 * MIB)))
        expect("two at one output leave nothing else", not leftovers(folder))


def large_above_a_limit(folder):
    write(f"{folder}/x.o", "oooo")
    status, text, _ = run(folder, job("large.c", "x.o"), preexec_fn=file_limit(MIB))
    expect("a file-size limit", status == 107 and text.startswith("x.o: cannot be written: File too large") and "1 failed put\n" in text, (status, text))
    expect("a file-size limit leaves the output", content(f"{folder}/x.o") == ("o", 4) and not leftovers(folder))


def large_on_a_small_disk(folder):
    small = f"{folder}/small-disk"
    os.mkdir(small)
    mounted = subprocess.run(["mount", "-t", "tmpfs", "-o", "size=2m", "tmpfs", small], capture_output=True).returncode == 0
    if not mounted:
        print("a full disk: skipped, since nothing can be mounted here")
        return
    try:
        write(f"{small}/x.o", "oooo")
        status, text, _ = run(folder, job("large.c", "small-disk/x.o"))
        expect("a full disk", status == 107 and "1 failed put\n" in text and "x.o: cannot be written: No space left" in text, (status, text))
        expect("a full disk leaves the output", content(f"{small}/x.o") == ("o", 4) and not leftovers(small))
        status, text, _ = run(folder, job("small.c", "small-disk/x.o"))
        expect("a smaller object fits", status == 0 and content(f"{small}/x.o") == ("S", 1), text)
    finally:
        subprocess.run(["umount", small])


def other_outputs(folder):
    os.mkfifo(f"{folder}/pipe")
    os.mkdir(f"{folder}/place")
    for name, status in [("/dev/null", 0), ("pipe", 107), ("place", 107), ("l" * 255, 0)]:
        seen, text, _ = run(folder, job("small.c", name))
        expect(f"the output {name[:10]}", seen == status, (seen, text))
        expect(f"the reason for {name[:10]}", (f"{name}: cannot be written: " in text) == (status != 0), text)
    expect("a device stays one", subprocess.run(["test", "-c", "/dev/null"]).returncode == 0)
    expect("a pipe stays one", subprocess.run(["test", "-p", f"{folder}/pipe"]).returncode == 0)
    expect("nothing is left", not leftovers(folder))


# What is at x.o before a put: a name, and a function of the folder that makes it.
STANDING = [
    ("nothing", lambda folder: None),
    ("an empty file", lambda folder: place_file(folder, "x.o", b"", 0o600)),
    ("a file", lambda folder: place_file(folder, "x.o", b"old", 0o600)),
    ("a link to nothing", lambda folder: os.symlink("to.o", f"{folder}/x.o")),
    ("a link to a link to nothing", lambda folder: (os.symlink("there/to.o", f"{folder}/x.o"), os.symlink("../to.o", f"{folder}/there/to.o"))),
    ("a link to an empty file", lambda folder: (place_file(folder, "to.o", b"", 0o640), os.symlink(f"{folder}/to.o", f"{folder}/x.o"))),
    ("a link to a file", lambda folder: (place_file(folder, "to.o", b"old", 0o600), os.symlink("to.o", f"{folder}/x.o"))),
    ("a link to itself", lambda folder: os.symlink("x.o", f"{folder}/x.o")),
    ("a link into no folder", lambda folder: os.symlink("no/such/to.o", f"{folder}/x.o")),
]


def place_file(folder, name, held, mode):
    with open(f"{folder}/{name}", "wb") as file:
        file.write(held)
    os.chmod(f"{folder}/{name}", mode)


def standing(folder, made):
    """What is at x.o and to.o: links by their text, files by their mode and whether they hold the new object."""
    seen = {}
    for name in ("x.o", "to.o", "there/to.o"):
        path = f"{folder}/{name}"
        if os.path.islink(path):
            seen[name] = "a link"
        elif os.path.exists(path):
            with open(path, "rb") as file:
                seen[name] = (oct(os.stat(path).st_mode & 0o7777), file.read() == made)
    return seen


def outputs_as_gcc(folder):
    """A put leaves at each output what gcc leaves there."""
    if not shutil.which("gcc"):
        print("outputs as gcc's own: skipped, since gcc is missing")
        return
    command = ["gcc", "-c", "x.c", "-o", "x.o"]
    for what, make in STANDING:
        seen = []
        for words in (command, [FARM, "build", "--hosts", "localhost"], [FARM, "cc", *command]):
            place = f"{folder}/standing"
            os.makedirs(f"{place}/there")
            write(f"{place}/x.c", "int x = 1;\n")
            subprocess.run(["gcc", "-c", "x.c", "-o", "new.o"], cwd=place, check=True)
            with open(f"{place}/new.o", "rb") as file:
                made = file.read()
            make(place)
            environment = {**os.environ, "DISTCC_HOSTS": "localhost", "DISTCC_FALLBACK": "0"}
            ran = subprocess.run(words, cwd=place, capture_output=True, env=environment, input=f"{' '.join(command)}\n".encode())
            seen.append((ran.returncode == 0, standing(place, made), ran.stderr))
            expect(f"{what}: nothing else is left", not leftovers(place), os.listdir(place))
            shutil.rmtree(place)
        by_gcc, by_build, by_command = seen
        expect(f"{what} at the output, as gcc has it", by_gcc[:2] == by_command[:2], (by_gcc, by_command))
        if by_gcc[0]:
            expect(f"{what} at the output of a job, as gcc has it", by_gcc[:2] == by_build[:2], (by_gcc, by_build))
        else:
            # gcc removes what is there, and a job leaves it
            expect(f"{what} at the output of a job, which gcc doesn't write", not by_build[0] and b".o: cannot be written: " in by_build[2], seen)


REMOVER = """#!/bin/sh
for word; do output=$word; done
case "$*" in
*-E*) echo x ;;
*-fremoves-*) rm -f "$output"; sleep 0.4; case "$*" in *-fremoves-1*) exit 1 ;; esac ;;
*-fwrites*) sleep 0.1; echo OTHER >"$output"; sleep 0.5 ;;
esac
"""


def objects_of_two_workers(folder, rounds):
    """Two workers at once: one's compiler takes its output away and ends later, the other's writes its object meanwhile. Each has its own."""
    place = f"{folder}/own"
    os.mkdir(place)
    write_program(f"{place}/remover", REMOVER)
    write(f"{place}/a.c", "")
    write(f"{place}/b.cc", "")
    os.mkdir(f"{place}/tmp")
    for number in range(rounds):
        jobs = f"./remover -fremoves-{number % 2} -c a.c -o a.o\n./remover -fwrites -c b.cc -o b.o\n"
        words = [FARM, "build", "--hosts", "--localslots=2", "--workers", "2"]
        farm = subprocess.run(words, cwd=place, input=jobs.encode(), capture_output=True, env={**os.environ, "TMPDIR": f"{place}/tmp"})
        with open(f"{place}/b.o", "rb") as file:
            held = file.read()
        expect("an object is that of its own compiler", held == b"OTHER\n", (number, held, farm.stdout, farm.stderr))
        told = b"./remover: left no object\n" in farm.stderr
        expect("a compile that left no object is told", told == (number % 2 == 0), (number, farm.stderr))
        expect("the folder of each run is gone", not os.listdir(f"{place}/tmp"))
        for name in ("a.o", "b.o"):
            if os.path.exists(f"{place}/{name}"):
                os.remove(f"{place}/{name}")
    print(f"{rounds} rounds of two compilers at once")


PORT = start_host(serve)
with work_folder() as work:
    make_folder(work, COMPILER, SOURCES)
    resident_sizes(work)
    killed_in_a_put(work, 50)
    two_at_once(work, 40)
    large_above_a_limit(work)
    large_on_a_small_disk(work)
    other_outputs(work)
    outputs_as_gcc(work)
    objects_of_two_workers(work, int(os.environ.get("ROUNDS", "5")))
verdict("tests/delivery")
