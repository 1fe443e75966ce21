"""Runs the jobs of bench/run: run.py FARM CLIENT COUNT ROUNDS DISTCCD FARMD, the last two the ports of the servers; the files are in the working folder."""
import contextlib
import os
import subprocess
import sys
import time

FARM, CLIENT, COUNT, ROUNDS, DISTCCD, FARMD = sys.argv[1], sys.argv[2], int(sys.argv[3]), int(sys.argv[4]), sys.argv[5], sys.argv[6]
FILES = [f"f{k}" for k in range(1, COUNT + 1)]
JOBS = "".join(f"gcc -c {name}.c -o {name}.o\n" for name in FILES)
WAYS = {
    "gcc": "gcc -c",
    "split": "gcc -E and gcc -c",
    "distcc": "distcc to distccd",
    "farm": "farm cc to distccd",
    "client": "the small client",
    "served": "farm cc to farmd",
}
LISTS = {
    "list": "a list to distccd",
    "client list": "a list, small client",
    "served list": "a list to farmd",
}


def commands(way, name):
    """The commands by which a way compiles a file, and the host list of their environment."""
    compiling = ["gcc", "-c", f"{name}.c", "-o", f"{name}.o"]
    if way == "gcc":
        return [compiling], ""
    if way == "split":
        return [["gcc", "-E", f"{name}.c", "-o", f"{name}.i"], ["gcc", "-c", f"{name}.i", "-o", f"{name}.o"]], ""
    if way == "client":
        return [[CLIENT, DISTCCD, f"{name}.c", f"{name}.o"]], ""
    return [(["distcc"] if way == "distcc" else [FARM, "cc"]) + compiling], f"127.0.0.1:{FARMD if way == 'served' else DISTCCD}"


def list_command(way):
    """The command by which a way compiles all files by one process."""
    if way == "client list":
        return [CLIENT, DISTCCD, *(f"{name}{end}" for name in FILES for end in (".c", ".o"))]
    return [FARM, "build", "--hosts", f"127.0.0.1:{FARMD if way == 'served list' else DISTCCD}", "--workers", "1", "--no-fallback"]


def run(words, hosts="", jobs=""):
    """The seconds that a command takes, and those of the processor of its process and of those that it waited for."""
    with open("jobs", "w+", encoding="ascii") as file:
        file.write(jobs)
        file.flush()
        streams = [(os.POSIX_SPAWN_OPEN, 0, "jobs", os.O_RDONLY, 0), (os.POSIX_SPAWN_OPEN, 1, "/dev/null", os.O_WRONLY, 0)]
        begin = time.perf_counter()
        _, status, usage = os.wait4(os.posix_spawnp(words[0], words, {**os.environ, "DISTCC_HOSTS": hosts}, file_actions=streams), 0)
        took = time.perf_counter() - begin
    if status != 0:
        sys.exit(f"bench/run: {' '.join(words[:8])} failed")
    return took, usage.ru_utime + usage.ru_stime


@contextlib.contextmanager
def made(names):
    """The objects of these files aren't there before, and are there afterwards."""
    for name in names:
        for end in (".i", ".o"):
            with contextlib.suppress(FileNotFoundError):
                os.remove(name + end)
    yield
    lacking = [name for name in names if not os.path.getsize(f"{name}.o")]
    if lacking:
        sys.exit(f"bench/run: no object of {lacking}")


def compile_by(way, name):
    """What a file took in a way: the seconds, and those of the processor, of the split only its preprocessor's."""
    each, hosts = commands(way, name)
    with made([name]):
        runs = [run(words, hosts) for words in each]
    return sum(took for took, _ in runs), runs[0][1]


def list_by(way):
    """What a job of a list of all files took in a way."""
    with made(FILES):
        took, processor = run(list_command(way), jobs=JOBS)
    return took / COUNT, processor / COUNT


def keep_least(table, key, pair):
    table[key] = tuple(map(min, pair, table.get(key, pair)))


def tell(times, ways):
    """What each way took and what it adds to the split, by the clock and of the processor, and in what distcc adds, in milliseconds."""
    added = {way: [mine - other for mine, other in zip(times[way], times["split"])] for way in times}
    for way, label in ways.items():
        line = f"  {label:20} {times[way][0] * 1000:7.2f} {times[way][1] * 1000:7.2f}"
        if way not in ("gcc", "split"):
            line += f"   adds {added[way][0] * 1000:6.2f} {added[way][1] * 1000:6.2f}"
            line += "".join(f"  {mine / other:5.2f}" if other > 0 else "      -" for mine, other in zip(added[way], added["distcc"]))
        print(line)


def main():
    files, rounds = {}, {}
    for turn in range(ROUNDS):
        whole = dict.fromkeys(WAYS, (0, 0))
        for name in FILES:
            for way in WAYS:
                pair = compile_by(way, name)
                keep_least(files, (way, name), pair)
                whole[way] = tuple(map(sum, zip(whole[way], pair)))
        for way, pair in whole.items():
            keep_least(rounds, way, [it / COUNT for it in pair])
        for way in LISTS:
            keep_least(rounds, way, list_by(way))
        with open("/proc/loadavg", encoding="ascii") as load:
            print(f"round {turn + 1}, ms per job:", ", ".join(f"{way} {whole[way][0] / COUNT * 1000:.2f}" for way in WAYS), "load", load.read().split()[0],
                  flush=True)
    print(f"{COUNT} files, the least of {ROUNDS} rounds for each file, mean per job in ms: by the clock, and of the processor without the server's")
    tell({way: [sum(files[way, name][at] for name in FILES) / COUNT for at in (0, 1)] for way in WAYS}, WAYS)
    print("the least whole round in each way, per job in ms:")
    tell(rounds, {**WAYS, **LISTS})


main()
