"""ENTRIES KIB PORT PROCESS PORT PROCESS: fills the cache of the daemon at the first port with ENTRIES sources of KIB KiB, and asks both daemons for one source in
turns. For bench/shared."""
import os
import sys
import threading
import time

from peaks import resident
from wire import compile_request, exchange

ROUNDS = int(os.environ.get("ROUNDS", "20"))
HITS = 250
CLIENTS = 8
TICK = 1_000_000 / os.sysconf("SC_CLK_TCK")


def source_of(number, size):
    head = b"// %d\n" % number
    return head + b"int a;\n" * ((size - len(head)) // 7)


def ask(port, source):
    assert exchange(port, compile_request(b"leaves", source)).startswith(b"DONE00000001STAT00000000")


def fill(port, numbers, size):
    for number in numbers:
        ask(port, source_of(number, size))


def processor_time(process):
    """The microseconds of processor time that a process has had."""
    with open(f"/proc/{process}/stat", encoding="ascii") as file:
        fields = file.read().rsplit(")", 1)[1].split()
    return (int(fields[11]) + int(fields[12])) * TICK


def main():
    entries, kib, *rest = (int(word) for word in sys.argv[1:])
    size = kib * 1024
    daemons = [(rest[0], rest[1]), (rest[2], rest[3])]
    before = resident(rest[1], "RssAnon")
    threads = [threading.Thread(target=fill, args=(rest[0], range(n, entries, CLIENTS), size)) for n in range(CLIENTS)]
    for thread in threads:
        thread.start()
    for thread in threads:
        thread.join()
    taken = resident(rest[1], "RssAnon") - before
    # an entry is its four words, 6 + 2 + 2 bytes, its source, and its object, which is 10 bytes more
    counted = sum(2 * len(source_of(number, size)) + 20 for number in range(entries)) // 1024
    asked = source_of(entries // 2, size)
    for port, _ in daemons:
        ask(port, asked)
    least = [None, None]
    used = [0, 0]
    for _ in range(ROUNDS):
        for which, (port, process) in enumerate(daemons):
            begin, had = time.perf_counter(), processor_time(process)
            for _ in range(HITS):
                ask(port, asked)
            took = (time.perf_counter() - begin) / HITS * 1000
            used[which] += processor_time(process) - had
            least[which] = took if least[which] is None else min(least[which], took)
    times = ROUNDS * HITS
    print(f"a hit on a source of {kib} KiB, in turns, least of {ROUNDS} rounds of {HITS}:")
    for name, ms, us in zip((f"beside {entries} entries", "beside no other"), least, used):
        print(f"  {name:<24} {ms:6.3f} ms, {us / times:6.0f} us of the daemon's processor time")
    print(f"  ratio {least[0] / least[1]:.2f}, of processor time {used[0] / used[1]:.2f}")
    print(f"  resident for {counted} KiB of entries: {taken} KiB, ratio {taken / counted:.3f}")


main()
