"""`farm share` with real processes: share.py FOLDER PORT PORT. A farmd listens at each port, and its compiler `slow` leaves a mark at the begin and one at the end of a run.
It looks at what the callers of a desk see, at what is left after a signal, and at whole builds. FARM names the program."""
import contextlib
import os
import re
import signal
import socket
import subprocess
import sys
import threading
import time

from checks import end, expect, fail, write, write_program

FARM = os.environ["FARM"]
WORK, ONE, TWO = sys.argv[1:]
HOSTS = f"127.0.0.1:{ONE}/2 127.0.0.1:{TWO}/2"
MARKS = {ONE: f"{WORK}/marks-one", TWO: f"{WORK}/marks-two"}
# how soon a slot is free again: 100 ms, but on a machine that is busy with other work
SOON = 0.1 if os.getloadavg()[0] < 2 * os.cpu_count() else 1.0
PLAIN = {name: value for name, value in os.environ.items() if name not in ("DISTCC_HOSTS", "FARM_SHARE")}


def environment(**more):
    return {**PLAIN, **more}


def share(hosts, *words, **more):
    """`farm share` with a host list, started."""
    more.setdefault("env", environment())
    return subprocess.Popen([FARM, "share", "--hosts", hosts, *words], text=True, **more)


def run(hosts, *words, seconds=60, **more):
    more.setdefault("env", environment())
    return subprocess.run([FARM, "share", "--hosts", hosts, *words], capture_output=True, text=True, timeout=seconds, **more)


def children(process):
    """The children of a process, each with its words."""
    found = []
    for name in os.listdir("/proc"):
        with contextlib.suppress(OSError, ValueError):
            with open(f"/proc/{int(name)}/stat", encoding="utf-8", errors="replace") as file:
                parent = int(file.read().rsplit(")", 1)[1].split()[1])
            if parent == process:
                with open(f"/proc/{name}/cmdline", "rb") as file:
                    found.append((int(name), file.read().split(b"\0")[:-1]))
    return found


def desk_of(process):
    """The process of the desk below a `farm share`."""
    for _ in range(100):
        for child, words in children(process):
            if words[-1:] == [b"--desk"]:
                return child
        time.sleep(0.05)
    fail("the desk's process isn't there")
    return None


def is_running(process):
    with contextlib.suppress(OSError):
        with open(f"/proc/{process}/stat", encoding="utf-8", errors="replace") as file:
            return file.read().rsplit(")", 1)[1].split()[0] != "Z"
    return False


def ends_soon(process, seconds=5):
    for _ in range(int(seconds * 50)):
        if not is_running(process):
            return True
        time.sleep(0.02)
    return False


class Desk:
    """A desk whose command waits for the end of its input."""

    def __init__(self, hosts, **more):
        self.process = share(hosts, "sh", "-c", 'echo "$FARM_SHARE"; read line; exit 3', stdin=subprocess.PIPE, stdout=subprocess.PIPE, **more)
        self.place = self.process.stdout.readline().strip()
        address, port, self.token = self.place.split(":")
        self.address = address, int(port)
        self.seats = []

    def dial(self):
        seat = socket.create_connection(self.address, timeout=10)
        self.seats.append(seat)
        return seat

    def ask(self, kind="", token=None):
        seat = self.dial()
        seat.sendall(f"farm-share 1 {token or self.token}{kind}\n".encode())
        return seat

    def close(self):
        for seat in self.seats:
            seat.close()
        self.process.stdin.close()
        self.process.stdout.close()
        return self.process.wait(10)


def answer(seat, limit=10.0):
    """The desk's line; `waits` if none comes in this time, None if the connection ends."""
    seat.settimeout(limit)
    line = b""
    try:
        while not line.endswith(b"\n"):
            piece = seat.recv(1)
            if not piece:
                return None
            line += piece
    except TimeoutError:
        return "waits"
    except ConnectionError:
        return None
    return line.decode().strip()


def say(seat, text):
    seat.sendall(text.encode() + b"\n")
    seat.close()


def check_callers():
    """What a desk answers its callers, in order, and whatever pieces their lines come in."""
    desk = Desk("a:1/1 b:1/1 --localslots=2", env=environment(DISTCC_BACKOFF_PERIOD="2"))
    one, two = desk.ask(), desk.ask()
    expect("the first caller gets the first host", answer(one) == "host a:1/1")
    expect("the second gets the second", answer(two) == "host b:1/1")
    three = desk.ask()
    expect("the third waits", answer(three, 0.3) == "waits")
    local, other, last = desk.ask(" local"), desk.ask(" local"), desk.ask(" local")
    expect("a caller for a local slot doesn't wait for those of hosts", (answer(local), answer(other)) == ("here", "here"))
    expect("two local slots are two", answer(last, 0.3) == "waits")
    expect("a caller below one that has a slot doesn't wait", answer(desk.ask(" within")) == "here")
    begun = time.monotonic()
    one.close()
    expect("a caller that is gone gives its slot to the next", answer(three, 1) == "host a:1/1")
    expect("within 100 ms", time.monotonic() - begun < SOON, f"{time.monotonic() - begun:.3f}")
    say(local, "done")
    expect("a local slot goes to who waits for one", answer(last, 1) == "here")
    for seat in (three, two):
        say(seat, "done")

    slow = desk.dial()
    for byte in f"farm-share 1 {desk.token}\n".encode():
        slow.sendall(bytes([byte]))
        time.sleep(0.002)
    expect("a greeting comes in pieces", answer(slow) in ("host a:1/1", "host b:1/1"))
    slow.sendall(b"do")
    time.sleep(0.02)
    slow.sendall(b"ne\n")
    expect("and so does an end, after which the connection is closed", answer(slow) is None)

    waiting = [desk.ask() for _ in range(3)]
    expect("two of three have a host", sorted(filter(None, (answer(seat, 0.3) for seat in waiting))) == ["host a:1/1", "host b:1/1", "waits"])
    waiting[2].sendall(b"done\n")
    expect("one that waits has nothing to say", answer(waiting[2], 1) is None)
    waiting[0].sendall(b"farm-share 1 again\n")
    expect("nor has one with a slot, but its end", answer(waiting[0], 1) is None)
    say(waiting[1], "broke")
    free = desk.ask()
    expect("a host whose exchange broke isn't used", answer(free, 1) == "host a:1/1")
    late = desk.ask()
    begun = time.monotonic()
    expect("before its time", answer(late, 5) == "host b:1/1" and time.monotonic() - begun > 0.8, f"{time.monotonic() - begun:.1f}")
    say(free, "broke")
    say(late, "broke")
    other.close()
    last.close()
    home = [desk.ask() for _ in range(3)]
    expect("without hosts callers go home by local slots", [answer(seat, 0.3) for seat in home] == ["here", "here", "waits"])
    expect("the command's status is that of farm share", desk.close() == 3)


def check_order():
    """64 callers at once on two slots are served in the order in which they asked."""
    desk = Desk("a:1/1 b:1/1")
    held = [desk.ask(), desk.ask()]
    for seat in held:
        answer(seat)
    many = []
    for _ in range(64):
        many.append(desk.ask())
        time.sleep(0.002)
    for seat in held:
        say(seat, "done")
    order = []
    left = list(range(64))
    while left:
        for at in left[:2]:
            if answer(many[at], 5) not in ("host a:1/1", "host b:1/1"):
                fail(f"caller {at} of 64 isn't served")
                desk.close()
                return
            order.append(at)
            say(many[at], "done")
            left.remove(at)
    expect("64 callers on 2 slots are served in their order", order == sorted(order))
    desk.close()


def check_strangers():
    """Nobody without the token is answered, and a port scan keeps nobody from a slot."""
    desk = Desk("a:1/1")
    for name, text in (("another token", f"farm-share 1 {'f' * 32}\n"), ("no token", "farm-share 1 \n"), ("another line", "hello\n"),
                       ("half a line", f"farm-share 1 {desk.token}"), ("a long line", "x" * 500), ("another version", f"farm-share 2 {desk.token}\n")):
        seat = desk.dial()
        with contextlib.suppress(OSError):
            seat.sendall(text.encode())
        expect(f"{name} gets no answer", answer(seat, 3) is None)
    scan = []

    def knock():
        for at in range(1000):
            with contextlib.suppress(OSError):
                scan.append(socket.create_connection(desk.address, timeout=1))
                if at % 2:
                    scan.pop().close()

    scanning = threading.Thread(target=knock)
    scanning.start()
    times = []
    while scanning.is_alive():
        begun = time.monotonic()
        for _ in range(3):  # as farm cc does
            seat = desk.ask()
            line = answer(seat, 5)
            if line:
                break
        expect("a caller is served in a port scan", line == "host a:1/1", line)
        times.append(time.monotonic() - begun)
        with contextlib.suppress(OSError):
            say(seat, "done")
    scanning.join()
    for seat in scan:
        seat.close()
    expect("a port scan of 1,000 keeps nobody for long", times and max(times) < 20 * SOON, f"{max(times, default=0):.2f}")
    desk.close()
    full = Desk("a:1/255 b:1/255 c:1/255")
    seats = [full.ask() for _ in range(512)]
    expect("512 callers are known", all((answer(seat, 5) or "").startswith("host ") for seat in seats))
    expect("one more goes on without the desk", answer(full.ask(), 5) == "alone")
    full.close()


def make_folder(name, count=8, text="", compiler="slow"):
    folder = f"{WORK}/{name}"
    os.makedirs(folder)
    for at in range(count):
        write(f"{folder}/f{at}.c", f"{text}int f{at}(void) {{ return {at}; }}\n")
    write(f"{folder}/Makefile", "all: $(patsubst %.c,%.o,$(wildcard f*.c))\n%.o: %.c\n\t@$(CC) -O1 -c $< -o $@\n")
    return folder, f"{FARM} cc {compiler}"


def objects(folder):
    found = {}
    for name in sorted(os.listdir(folder)):
        if name.endswith(".o"):
            with open(f"{folder}/{name}", "rb") as file:
                found[name] = file.read()
    return found


def peaks():
    """How many compiles ran at once at most on each host, by the marks of their compilers."""
    found = {}
    for port, path in MARKS.items():
        now = most = 0
        with open(path, encoding="ascii") as file:
            for mark in file.read():
                now += 1 if mark == "+" else -1
                most = max(most, now)
        found[port] = most
        write(path, "")
    return found


def check_builds():
    """A build uses all hosts, none above its limit, and its objects are those of a build without the desk."""
    folder, cc = make_folder("build", 16)
    peaks()
    done = run(HOSTS, "make", "-j16", f"CC={cc}", cwd=folder)
    expect("a build is done", done.returncode == 0, done.stderr[-500:])
    expect("no notice comes", done.stderr == "", done.stderr[-500:])
    seen = peaks()
    expect("each host has as many compiles at once as its limit, and no more", seen == {ONE: 2, TWO: 2}, seen)
    made = objects(folder)
    other, cc = make_folder("plain", 16)
    subprocess.run(["make", "-j4", f"CC={cc}"], cwd=other, env=environment(DISTCC_HOSTS=HOSTS), check=True, capture_output=True)
    expect("its objects are those without the desk", made == objects(other) and len(made) == 16)
    peaks()

    two = [make_folder(f"two{at}", 6) for at in range(2)]
    builds = [share(HOSTS, "make", "-j8", f"CC={cc}", cwd=folder, stderr=subprocess.PIPE) for folder, cc in two]
    for build, (folder, _) in zip(builds, two):
        expect("two at once are done", build.wait(60) == 0 and len(objects(folder)) == 6, build.stderr.read()[-300:])
        build.stderr.close()
    expect("a makefile with another host list has a notice", "another host list" in subprocess.run(
        [FARM, "share", "--hosts", HOSTS, "sh", "-c", f"DISTCC_HOSTS=127.0.0.1:{ONE}/4 {FARM} cc slow -c f0.c -o other.o"],
        cwd=folder, env=environment(), capture_output=True, text=True, timeout=30).stderr)


def check_nested():
    """A nested farm share and a nested make use the outer desk; a compiler that calls farm cc below one that has a slot doesn't wait for ever."""
    seen = run(HOSTS, FARM, "share", "sh", "-c", 'echo "$FARM_SHARE"; exec "$0" share --hosts b:1 sh -c \'echo "$FARM_SHARE"\'', FARM).stdout.split()
    outer = run(HOSTS, "sh", "-c", f'echo "$FARM_SHARE"; {FARM} share sh -c \'echo "$FARM_SHARE"\'').stdout.split()
    expect("a nested farm share uses the outer desk", len(outer) == 2 and outer[0] == outer[1], outer)
    expect("unless it has its own host list", len(seen) == 2 and seen[0] != seen[1], seen)
    folder, _ = make_folder("nested", 4)
    write_program(f"{folder}/outer", f'#!/bin/sh\nexec {FARM} cc slow "$@"\n')
    done = run(f"127.0.0.1:{ONE}/1 --localslots=1", "make", "-j4", f"CC={FARM} cc ./outer", cwd=folder, seconds=60)
    expect("a compiler that calls farm cc is done", done.returncode == 0 and len(objects(folder)) == 4, done.stderr[-500:])

    folder, cc = make_folder("server", 12)
    write(f"{folder}/Outer", f"all:\n\t+@{FARM} share --hosts '{HOSTS}' $(MAKE) CC='{cc}'\n")
    peaks()
    done = subprocess.run(["make", "-f", "Outer", "-j3"], cwd=folder, env=environment(), capture_output=True, text=True, timeout=60)
    seen = peaks()
    expect("make's job server works through it", done.returncode == 0 and "jobserver" not in done.stderr and 2 <= sum(seen.values()) <= 3,
           (seen, done.stderr[-300:]))


def check_local():
    """Commands that may not be sent keep to --localslots."""
    folder = f"{WORK}/local"
    os.makedirs(folder)
    write(f"{folder}/marks", "")
    write_program(f"{folder}/link", '#!/bin/sh\nprintf + >>marks\nsleep 0.2\nprintf - >>marks\n')
    words = " & ".join(f"{FARM} cc ./link a{at}.o -o prog{at}" for at in range(5))
    done = run(f"{HOSTS} --localslots=2", "sh", "-c", f"{words} & wait", cwd=folder)
    with open(f"{folder}/marks", encoding="ascii") as file:
        marks = file.read()
    now = most = 0
    for mark in marks:
        now += 1 if mark == "+" else -1
        most = max(most, now)
    expect("links keep to --localslots", (most, len(marks), done.returncode) == (2, 10, 0), (most, marks, done.stderr[-300:]))


def check_killed():
    """A desk that is killed in the middle of a build, and callers that are killed while they work and while they wait."""
    folder, cc = make_folder("killed", 16)
    build = share(HOSTS, "make", "-j16", f"CC={cc}", cwd=folder, stderr=subprocess.PIPE)
    desk = desk_of(build.pid)
    time.sleep(0.5)
    os.kill(desk, signal.SIGKILL)
    errors = build.communicate(timeout=60)[1]
    expect("a build goes on without its desk", build.returncode == 0, errors[-500:])
    expect("those that waited have a notice", "farm share doesn't answer" in errors, errors[-300:])
    expect("its objects are whole", objects(folder) == {name: data for name, data in objects(f"{WORK}/build").items()})
    peaks()

    desk = Desk(f"127.0.0.1:{ONE}/1")
    env = environment(DISTCC_HOSTS=f"127.0.0.1:{ONE}/1", FARM_SHARE=desk.place)
    words = [FARM, "cc", "slow", "-O1", "-c", "f0.c", "-o"]
    working = subprocess.Popen([*words, "a.o"], cwd=folder, env=env)
    time.sleep(0.3)
    waiting = subprocess.Popen([*words, "b.o"], cwd=folder, env=env)
    time.sleep(0.3)
    third = desk.ask()
    waiting.kill()
    waiting.wait()
    working.kill()
    begun = time.monotonic()
    expect("the slot of a caller that is killed is free", answer(third, 2) == f"host 127.0.0.1:{ONE}/1")
    expect("within 100 ms", time.monotonic() - begun < SOON + 0.05, f"{time.monotonic() - begun:.3f}")
    working.wait()
    desk.close()
    for name in ("a.o", "b.o"):
        with contextlib.suppress(OSError):
            os.remove(f"{folder}/{name}")


def check_false_desks():
    """Whoever has the port in a desk's place can send a source nowhere else, nor keep a compile from being done."""
    folder, _ = make_folder("false", 1)
    with socket.create_server(("127.0.0.1", 0)) as door:
        env = environment(DISTCC_HOSTS=f"127.0.0.1:{ONE}/2", FARM_SHARE=f"127.0.0.1:{door.getsockname()[1]}:{'0' * 32}")
        for name, text in (("another host", b"host 127.0.0.1:9/4\n"), ("no entry", b"host \n"), ("two entries", f"host 127.0.0.1:{ONE}/2 a:1\n".encode()),
                           ("another word", b"welcome\n"), ("a long line", b"x" * 1000), ("half a line", b"her"), ("nothing", b"")):
            with contextlib.suppress(OSError):
                os.remove(f"{folder}/f0.o")
            job = subprocess.Popen([FARM, "cc", "slow", "-c", "f0.c"], cwd=folder, env=env, stderr=subprocess.PIPE, text=True)
            while job.poll() is None:
                door.settimeout(0.2)
                with contextlib.suppress(TimeoutError, OSError):
                    seat = door.accept()[0]
                    seat.settimeout(2)
                    seat.recv(100)
                    seat.sendall(text)
                    seat.close()
            errors = job.communicate()[1]
            expect(f"a desk that answers {name} has a notice", "farm: farm share" in errors, errors)
            expect("and the compile is done", job.returncode == 0 and os.path.exists(f"{folder}/f0.o"))
        quiet = subprocess.run([FARM, "cc", "slow", "-c", "f0.c"], cwd=folder, env={**env, "FARM_SHARE": "127.0.0.1:1:" + "0" * 32, "FARM_NOTICES": "0"}, capture_output=True, timeout=20)
        expect("FARM_NOTICES=0 has no notice", (quiet.returncode, quiet.stderr) == (0, b""))
        for text in ("", "x", "127.0.0.1:99999:" + "0" * 32, "10.0.0.1:80:" + "0" * 32, "127.0.0.1:80:0"):
            done = subprocess.run([FARM, "cc", "slow", "-c", "f0.c"], cwd=folder, env={**env, "FARM_SHARE": text}, capture_output=True, timeout=20)
            expect(f"FARM_SHARE={text} names no desk", (done.returncode, done.stderr) == (0, b""), done.stderr)
    peaks()


def check_signals():
    """What a signal to farm share leaves, and its statuses."""
    # nohup, by which a check may be started, has it ignored
    signal.signal(signal.SIGHUP, signal.SIG_DFL)
    for name in ("SIGINT", "SIGTERM", "SIGHUP", "SIGPIPE", "SIGKILL"):
        build = share(HOSTS, "sh", "-c", "echo $$; exec sleep 60", stdout=subprocess.PIPE)
        command = int(build.stdout.readline())
        desk = desk_of(build.pid)
        os.kill(build.pid, getattr(signal, name))
        if name != "SIGPIPE":
            expect(f"{name} ends farm share", build.wait(5) == -getattr(signal, name))
        elif is_running(command):
            os.kill(build.pid, signal.SIGTERM)
        expect(f"{name} leaves no command", ends_soon(command))
        expect(f"{name} leaves no desk", ends_soon(desk))
        build.wait(5)
        build.stdout.close()
    # a shell that waits for a program which it starts as the signal comes goes on until that has ended, with farm share or without
    group = share(HOSTS, "sh", "-c", "echo $$; exec sleep 60", stdout=subprocess.PIPE, start_new_session=True)
    command = int(group.stdout.readline())
    desk = desk_of(group.pid)
    os.killpg(group.pid, signal.SIGINT)
    left = [name for name, process in (("command", command), ("desk", desk), ("farm share", group.pid)) if not ends_soon(process)]
    expect("a signal to the group leaves nothing", not left, left)
    group.kill()
    group.wait(5)
    group.stdout.close()
    expect("the status is the command's", run(HOSTS, "sh", "-c", "exit 42").returncode == 42)
    expect("or 128 and its signal", run(HOSTS, "sh", "-c", "kill -TERM $$").returncode == 143)
    absent = run(HOSTS, "./no-such-program")
    expect("or 107, with a line", absent.returncode == 107 and "./no-such-program" in absent.stderr, absent.stderr)
    expect("a fault of the host list is 106", run("a,b", "true").returncode == 106)
    expect("no command is 101", subprocess.run([FARM, "share"], env=environment(), capture_output=True).returncode == 101)
    fed = subprocess.run([FARM, "share", "--hosts", HOSTS, "cat"], input="text", env=environment(), capture_output=True, text=True, timeout=10)
    expect("the command has the standard input", fed.stdout == "text")
    for closed in ("<&-", ">&-", "2>&-", "<&- >&- 2>&-"):
        done = subprocess.run(["sh", "-c", f'"$0" share --hosts "$1" sh -c "exit 5" {closed}', FARM, HOSTS], env=environment(), timeout=10)
        expect(f"a closed stream is no harm: {closed}", done.returncode == 5, done.returncode)


def check_rest():
    """A desk that waits does next to nothing."""
    desk = Desk("a:1/1")
    held, waiting = desk.ask(), desk.ask()
    answer(held)
    process = desk_of(desk.process.pid)
    with open(f"/proc/{process}/status", encoding="ascii") as file:
        before = int(re.search(r"voluntary_ctxt_switches:\t(\d+)", file.read()).group(1))
    time.sleep(2)
    with open(f"/proc/{process}/status", encoding="ascii") as file:
        after = int(re.search(r"voluntary_ctxt_switches:\t(\d+)", file.read()).group(1))
    expect("a desk wakes up at most 20 times a second", after - before <= 44, after - before)
    expect("though one waits", answer(waiting, 0.1) == "waits")
    desk.close()


for check in (check_callers, check_order, check_strangers, check_builds, check_nested, check_local, check_killed, check_false_desks, check_signals, check_rest):
    begun = time.monotonic()
    check()
    if os.environ.get("SHARE_TIMES"):
        print(f"{check.__name__} {time.monotonic() - begun:.1f} s", flush=True)
end()
