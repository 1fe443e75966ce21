"""Faults of a real machine: each leaves every named file old or whole, and is reported.

A source is a number and a letter, as `65536 B`: its object has that many bytes of this letter, whoever compiles it. FARM names the program.
"""
import fcntl
import os
import random
import signal
import socket
import struct
import subprocess
import termios
import threading
import time

from checks import expect, verdict, work_folder, write, write_program
from farm import FARM, content, file_limit, job, leftovers, make_folder, remove_leftovers, run_farm, start_farm
from wire import read_request, reply_head, start_host

PAGE = 4096
SIZE = 16 * PAGE
MIB = 1 << 20
JOBS = 30
SOURCES = [("x.i", SIZE, "N"), ("small.i", 1, "S"), *((f"k{number}.i", MIB, "N") for number in range(JOBS))]
KILLS = int(os.environ.get("KILLS", "200"))
SIGNALS = [signal.SIGKILL, signal.SIGTERM, signal.SIGINT, signal.SIGHUP]
TENTHS = range(11)
NOBODY = 65534
COMPILER = """#!/bin/sh
read -r size letter <"$2"
head -c "$size" /dev/zero | tr '\\0' "$letter" >"$4"
"""


def object_of(source):
    size, letter = source.split()
    return letter * int(size)


# hosts

def answer(link):
    made = object_of(read_request(link))
    link.sendall(reply_head(len(made)) + made)


def hang(link):
    made = object_of(read_request(link))
    time.sleep(1)
    link.sendall(reply_head(len(made)) + made)


def reset_after(tenths):
    """A host that resets the link after this number of tenths of its reply."""

    def serve(link):
        made = object_of(read_request(link))
        reply = reply_head(len(made)) + made
        link.sendall(reply[: len(reply) * tenths // 10])
        time.sleep(0.05)
        link.setsockopt(socket.SOL_SOCKET, socket.SO_LINGER, struct.pack("ii", 1, 0))

    return serve


# reports

def line(port, text):
    return f"1 {text.replace('HOST', f'127.0.0.1:{port}')}\ntotal 1 ok {int('stat 00000000' in text)}\n"


# faults of the disk

def not_put(name, folder, seen, put=False):
    """The object wasn't put: the old file is there, and nothing else, and a line names the file and the reason. If it fits it was."""
    status, text = seen
    told = [each for each in text.splitlines(True) if "x.o: cannot be written: " in each and "(os error " in each]
    for each in told:
        text = text.replace(each, "", 1)
    if put:
        expect(name, status == 0 and content(f"{folder}/x.o") == ("N", SIZE), seen)
    else:
        expect(name, status == 107 and text == line(PORT, "failed put") and told, seen)
        expect(f"{name} leaves the output", content(f"{folder}/x.o") == ("o", 4))
    expect(f"{name} leaves nothing else", not leftovers(folder), leftovers(folder))


def full_disk(folder):
    """The disk has room for each number of pages of the object."""
    small = f"{folder}/disk"
    os.mkdir(small)
    for pages in range(1, SIZE // PAGE + 3):
        words = ["mount", "-t", "tmpfs", "-o", f"size={pages * PAGE}", "tmpfs", small]
        if subprocess.run(words, capture_output=True).returncode != 0:
            print("a full disk: skipped, since nothing can be mounted here")
            return
        try:
            write(f"{small}/x.o", "oooo")
            not_put(f"a disk of {pages} pages", small, run_farm(folder, job("x.i", "disk/x.o"), PORT, "--no-fallback"), pages * PAGE > SIZE)
        finally:
            subprocess.run(["umount", small])


def limited(folder):
    """A file may grow to each number of bytes."""
    for most in [*range(0, SIZE, 1021), SIZE - 1, SIZE]:
        write(f"{folder}/x.o", "oooo")
        not_put(f"a limit of {most} bytes", folder, run_farm(folder, job("x.i", "x.o"), PORT, "--no-fallback", preexec_fn=file_limit(most)), most == SIZE)


def unwritable(folder):
    """The output's folder isn't the user's to write."""
    place = f"{folder}/place"
    os.mkdir(place)
    write(f"{place}/x.o", "oooo")
    os.chmod(place, 0o555)
    os.chmod(folder, 0o755)

    def leave():
        if os.getuid() == 0:
            os.setgroups([])
            os.setgid(NOBODY)
            os.setuid(NOBODY)

    try:
        not_put("a folder that isn't writable", place, run_farm(folder, job("x.i", "place/x.o"), PORT, "--no-fallback", preexec_fn=leave))
    except PermissionError:
        print("a folder that isn't writable: skipped, since another user can't run the program here")
    os.chmod(place, 0o755)


# faults of the output

def unprinted(folder):
    """The report can't be printed: the status says so, and the object is there."""
    write(f"{folder}/x.o", "oooo")
    with open("/dev/full", "w") as full:
        status, _ = run_farm(folder, job("x.i", "x.o"), PORT, "--no-fallback", stdout=full)
    expect("a full output", status == 100 and content(f"{folder}/x.o") == ("N", SIZE), status)
    status, _ = run_farm(folder, job("small.i", "small.o"), PORT, "--no-fallback", stdout=None, stderr=None, preexec_fn=lambda: os.close(1))
    expect("a closed output", status == 100 and content(f"{folder}/small.o") == ("S", 1), status)
    ends, starts = os.pipe()
    os.close(ends)
    status, _ = run_farm(folder, job("x.i", "x.o"), PORT, "--no-fallback", stdout=starts, stderr=None)
    os.close(starts)
    expect("an output that no one reads", status == 100, status)


def blocked(folder):
    """A pipe that another process made non-blocking is waited for while it is full, and while it is empty."""
    write_program(f"{folder}/noisy", "#!/bin/sh\nyes 'a line of messages' | head -c 300000 >&2\n")
    ends, starts = os.pipe()
    os.set_blocking(starts, False)
    child = subprocess.Popen([FARM, "build", "--hosts", "localhost"], cwd=folder, stdin=subprocess.PIPE, stderr=starts, stdout=subprocess.DEVNULL)
    child.stdin.write(b"./noisy -E x.i\n")
    child.stdin.close()
    os.close(starts)
    held, before = -1, -2
    while held <= 0 or held != before:
        time.sleep(0.2)
        held, before = struct.unpack("i", fcntl.ioctl(ends, termios.FIONREAD, b"\0" * 4))[0], held
    with os.fdopen(ends, "rb") as pipe:
        said = len(pipe.read())
    status = child.wait()
    expect("a full pipe that isn't blocking", held < 300000 and status == 0 and said == 300000, (held, status, said))
    ends, starts = os.pipe()
    os.set_blocking(ends, False)
    child = subprocess.Popen([FARM, "build", "--hosts", f"127.0.0.1:{PORT}/4"], cwd=folder, stdin=ends, stdout=subprocess.DEVNULL)
    os.close(ends)
    time.sleep(0.5)
    os.write(starts, job("small.i", "late.o").encode())
    os.close(starts)
    status = child.wait()
    expect("an empty pipe that isn't blocking", status == 0 and content(f"{folder}/late.o") == ("S", 1), status)


# kills

def killed(folder):
    jobs = "".join(job(f"k{number}.i", f"k{number}.o") for number in range(JOBS))
    begun = time.monotonic()
    status, text = run_farm(folder, jobs, PORT, "--workers", "4", "--no-fallback")
    length = time.monotonic() - begun
    expect("a build of thirty objects", status == 0, text)
    left = whole = 0
    for _ in range(KILLS):
        for number in range(JOBS):
            write(f"{folder}/k{number}.o", "oooo")
        child = start_farm(folder, jobs, PORT, "--workers", "4", "--no-fallback")
        time.sleep(random.uniform(0, length))
        child.send_signal(random.choice(SIGNALS))
        child.stdout.read()
        child.wait()
        for number in range(JOBS):
            seen = content(f"{folder}/k{number}.o")
            expect("a killed farm leaves each output old or whole", seen in (("o", 4), ("N", MIB)), (number, seen))
            whole += seen == ("N", MIB)
        left += remove_leftovers(folder)
    status, text = run_farm(folder, jobs, PORT, "--workers", "4", "--no-fallback")
    expect("a run after killed ones", status == 0 and all(content(f"{folder}/k{number}.o") == ("N", MIB) for number in range(JOBS)), text)
    print(f"killed {KILLS} times in {length:.2f} s: {whole} objects were whole, {left} files were left")


# faults of hosts

def resets(folder):
    for tenths in TENTHS:
        port = start_host(reset_after(tenths))
        write(f"{folder}/x.o", "oooo")
        seen = run_farm(folder, job("x.i", "x.o"), port, "--no-fallback")
        if tenths == 10:
            expect("a reset behind the reply", seen == (0, line(port, "remote HOST stat 00000000")), seen)
            continue
        expect(f"a reset after {tenths} tenths", seen == (107, line(port, "failed HOST recv")), seen)
        expect(f"a reset after {tenths} tenths leaves the output", content(f"{folder}/x.o") == ("o", 4) and not leftovers(folder))
        seen = run_farm(folder, job("x.i", "x.o"), port)
        expect(f"a reset after {tenths} tenths is made good here", seen == (0, line(port, "here stat 00000000")), seen)
        expect(f"a reset after {tenths} tenths, and the object", content(f"{folder}/x.o") == ("N", SIZE) and not leftovers(folder))


def hangs(folder):
    port = start_host(hang)
    write(f"{folder}/x.o", "oooo")
    seen = run_farm(folder, job("x.i", "x.o"), port, "--no-fallback")
    expect("a host that hangs for a second", seen == (0, line(port, "remote HOST stat 00000000")), seen)
    expect("a host that hangs, and the object", content(f"{folder}/x.o") == ("N", SIZE))


def killed_host(folder):
    """A host that is killed while it answers: the job is compiled here."""
    door = socket.create_server(("127.0.0.1", 0))
    port = door.getsockname()[1]
    host = os.fork()
    if host == 0:
        signal.alarm(60)  # nobody may be there to kill it
        try:
            link, _ = door.accept()
            made = object_of(read_request(link))
            link.sendall(reply_head(len(made)) + made[: SIZE // 2])
            signal.pause()
        finally:
            os._exit(0)
    door.close()
    write(f"{folder}/x.o", "oooo")
    child = start_farm(folder, job("x.i", "x.o"), port)
    threading.Timer(0.5, os.kill, (host, signal.SIGKILL)).start()
    text = child.stdout.read().decode()
    os.waitpid(host, 0)
    seen = (child.wait(), text)
    expect("a host that is killed", seen == (0, line(port, "here stat 00000000")), seen)
    expect("a host that is killed, and the object", content(f"{folder}/x.o") == ("N", SIZE) and not leftovers(folder))
    seen = run_farm(folder, job("x.i", "x.o"), port, "--no-fallback")
    expect("a host that is gone", seen == (103, line(port, "failed HOST dial")), seen)


def mute_host(folder):
    """A host whose system answers no dial: after 5 seconds the job is compiled here."""
    door = socket.socket()
    door.bind(("127.0.0.1", 0))
    door.listen(0)
    port = door.getsockname()[1]
    # nobody accepts, so that the system lets further dials wait
    waiting = [socket.socket() for _ in range(4)]
    for link in waiting:
        link.setblocking(False)
        link.connect_ex(("127.0.0.1", port))
    begun = time.monotonic()
    seen = run_farm(folder, job("x.i", "x.o"), port)
    took = time.monotonic() - begun
    expect("a host that answers no dial", seen == (0, line(port, "here stat 00000000")), seen)
    expect("a host that answers no dial costs 5 seconds", 4.5 < took < 12, took)
    for link in [*waiting, door]:
        link.close()


def silent_host(folder):
    """A host that takes a request and says nothing: after 10 minutes the job is compiled here."""
    if "SLOW" not in os.environ:
        print("a host that is silent for 10 minutes: left out, since SLOW isn't set")
        return

    def silent(link):
        read_request(link)
        time.sleep(900)

    port = start_host(silent)
    begun = time.monotonic()
    seen = run_farm(folder, job("x.i", "x.o"), port)
    took = time.monotonic() - begun
    expect("a host that is silent", seen == (0, line(port, "here stat 00000000")), seen)
    expect("a host that is silent costs 10 minutes", 595 < took < 640, took)


def two_addresses(folder):
    """A name of two addresses, of which one refuses: the other is dialed."""
    write(f"{folder}/hosts", "127.0.0.3 twofold\n127.0.0.1 twofold\n")
    program = f"mount --bind {folder}/hosts /etc/hosts && exec {FARM} build --hosts twofold:{PORT} --no-fallback"
    run = subprocess.run(["unshare", "--mount", "sh", "-c", program], cwd=folder, input=job("x.i", "x.o").encode(), capture_output=True, check=False)
    if b"mount" in run.stderr or b"unshare" in run.stderr:
        print("a name of two addresses: skipped, since nothing can be mounted here")
        return
    seen = (run.returncode, run.stdout.decode())
    expect("a name of two addresses", seen == (0, f"1 remote twofold:{PORT} stat 00000000\ntotal 1 ok 1\n"), (seen, run.stderr))


PORT = start_host(answer)
with work_folder() as work:
    make_folder(work, COMPILER, SOURCES)
    for check in (full_disk, limited, unwritable, unprinted, blocked, killed, resets, hangs, killed_host, mute_host, silent_host, two_addresses):
        check(work)
verdict("tests/faults")
