"""Builds on four hosts of four slots, by `farm share make`, distcc's client, `farm cc` and `farm build`: share.py FOLDER FILES MILLIS ROUNDS. FARM and FARMD name
the programs."""
import math
import os
import random
import shutil
import socket
import statistics
import subprocess
import sys
import time

FARM, FARMD = os.environ["FARM"], os.environ["FARMD"]
TOP, FILES, MILLIS, ROUNDS = sys.argv[1], *map(int, sys.argv[2:])
PORT = 18632
HOSTS = [f"127.0.0.{at}" for at in range(1, 5)]
LIST = " ".join(f"{host}:{PORT}/4" for host in HOSTS)
HERE = os.path.dirname(os.path.abspath(__file__))


def dead_host(address):
    """A listener that takes no connection and whose queue is full: whoever dials it waits."""
    door = socket.socket()
    door.setsockopt(socket.SOL_SOCKET, socket.SO_REUSEADDR, 1)
    door.bind((address, PORT))
    door.listen(0)
    held = [door]
    for _ in range(3):
        one = socket.socket()
        one.setblocking(False)
        try:
            one.connect((address, PORT))
        except BlockingIOError:
            pass
        held.append(one)
    time.sleep(0.3)
    return held


def start_hosts(dead):
    daemons, doors = [], []
    for at, host in enumerate(HOSTS):
        if at == dead:
            doors = dead_host(host)
            continue
        words = ["--trust-options", "--compiler", f"slow={TOP}/bin/slow", "--listen", host, "--port", str(PORT), "--jobs", "4"]
        daemons.append(subprocess.Popen([FARMD, *words], stdout=subprocess.DEVNULL, stderr=subprocess.DEVNULL))
    time.sleep(0.7)
    return daemons, doors


def write_sources(folder, seed):
    os.makedirs(folder)
    rng = random.Random(seed)
    for at in range(FILES):
        pause = rng.lognormvariate(math.log(MILLIS) - 0.32, 0.8)
        with open(f"{folder}/x{at}.c", "w", encoding="ascii") as file:
            file.write(f"/* SLEEP {pause:.0f} */\n")
    names = " ".join(f"x{at}.o" for at in range(FILES))
    with open(f"{folder}/Makefile", "w", encoding="ascii") as file:
        file.write(f"all: {names}\n%.o: %.c\n\t@$(CC) -c $< -o $@\n")
    with open(f"{folder}/jobs", "w", encoding="ascii") as file:
        file.writelines(f"slow -c x{at}.c -o x{at}.o\n" for at in range(FILES))


def build(way, folder):
    """The seconds of one build."""
    env = {**os.environ, "PATH": f"{TOP}/bin:{os.environ['PATH']}", "DISTCC_DIR": f"{TOP}/state"}
    shutil.rmtree(f"{TOP}/state", ignore_errors=True)
    os.makedirs(f"{TOP}/state")
    for at in range(FILES):
        if os.path.exists(f"{folder}/x{at}.o"):
            os.remove(f"{folder}/x{at}.o")
    make = ["make", "-s", "-j16"]
    words, given = {
        "farm share": ([FARM, "share", "--hosts", LIST, *make, f"CC={FARM} cc slow"], None),
        "distcc": ([*make, "CC=distcc slow"], None),
        "--randomize": ([*make, f"CC={FARM} cc slow"], None),
        "farm build": ([FARM, "build", "--hosts", LIST, "--workers", "16"], "jobs"),
    }[way]
    env["DISTCC_HOSTS"] = {"distcc": LIST + " --localslots=4 --localslots_cpp=16", "--randomize": LIST + " --randomize"}.get(way, "")
    begun = time.monotonic()
    with open(f"{folder}/{given}" if given else os.devnull, encoding="ascii") as file:
        done = subprocess.run(words, cwd=folder, env=env, stdin=file, capture_output=True, text=True, check=False)
    took = time.monotonic() - begun
    if done.returncode != 0 or not all(os.path.exists(f"{folder}/x{at}.o") for at in range(FILES)):
        sys.exit(f"{way} failed: {done.returncode} {done.stderr[-300:]}")
    return took


def measure(name, dead, ways):
    times = {way: [] for way in ways}
    for seed in range(ROUNDS):
        folder = f"{TOP}/work-{dead}-{seed}"
        write_sources(folder, 100 + seed)
        for way in ways:
            daemons, doors = start_hosts(dead)
            try:
                times[way].append(build(way, folder))
            finally:
                for daemon in daemons:
                    daemon.terminate()
                    daemon.wait()
                for door in doors:
                    door.close()
        print(f"round {seed + 1} done, {name}; load {os.getloadavg()[0]:.1f}", flush=True)
    print(f"{name}: " + ", ".join(f"{way} {statistics.median(times[way]):.1f} s" for way in ways))
    for way in ways[1:]:
        ratios = [mine / other for mine, other in zip(times[ways[0]], times[way])]
        print(f"{name}: farm share to {way} {statistics.median(ratios):.2f} ({min(ratios):.2f} to {max(ratios):.2f})", flush=True)


def one_call(words, env):
    begun = time.perf_counter()
    subprocess.run(words, env=env, check=True, stdout=subprocess.DEVNULL)
    return time.perf_counter() - begun


def measure_one():
    """What farm share adds to one farm cc, by the least times; and the instructions that callgrind counts, in user space."""
    folder = f"{TOP}/one"
    os.makedirs(folder)
    with open(f"{folder}/a.c", "w", encoding="ascii") as file:
        file.write("/* SLEEP 0 */\n")
    daemons, _ = start_hosts(None)
    desk = subprocess.Popen([FARM, "share", "--hosts", LIST, "sh", "-c", "echo $FARM_SHARE; read line"], stdin=subprocess.PIPE, stdout=subprocess.PIPE, text=True)
    plain = {**os.environ, "PATH": f"{TOP}/bin:{os.environ['PATH']}", "DISTCC_HOSTS": LIST}
    shared = {**plain, "FARM_SHARE": desk.stdout.readline().strip()}
    words = [FARM, "cc", "slow", "-c", f"{folder}/a.c", "-o", f"{folder}/a.o"]
    times = {"plain": [], "shared": []}
    for _ in range(200):
        times["plain"].append(one_call(words, plain))
        times["shared"].append(one_call(words, shared))
    added = min(times["shared"]) - min(times["plain"])
    middle = statistics.median(times["shared"]) - statistics.median(times["plain"])
    print(f"one farm cc: {min(times['plain']) * 1000:.2f} ms, and {added * 1000:.2f} ms more below farm share ({middle * 1000:.2f} in the middle)", flush=True)
    if shutil.which("valgrind"):
        counts = []
        for env in (plain, shared):
            subprocess.run(["valgrind", "--tool=callgrind", f"--callgrind-out-file={folder}/out", *words], env=env, check=False, capture_output=True)
            with open(f"{folder}/out", encoding="utf-8", errors="replace") as file:
                counts += [int(line.split()[1]) for line in file if line.startswith(("summary:", "totals:"))][:1]
        if len(counts) == 2:
            print(f"one farm cc: {counts[0] // 1000} thousand instructions, and {(counts[1] - counts[0]) // 1000} thousand more below farm share")
    desk.stdin.close()
    desk.wait()
    for daemon in daemons:
        daemon.terminate()
        daemon.wait()


subprocess.run(["gcc", "-O1", "-o", f"{TOP}/bin/slow", f"{HERE}/share.c"], check=True)
WAYS = ["farm share", "distcc", "--randomize", "farm build"]
if not shutil.which("distcc"):
    WAYS.remove("distcc")
if FILES:
    measure("all well", None, WAYS)
    measure("one host dead", 1, WAYS)
measure_one()
