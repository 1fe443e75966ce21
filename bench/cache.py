"""Requests for bench/cache. `hit PORT FILE` sends a source of 8 MiB that is in the cache. `fill PORT COUNT PROCESS BOUND SIZES FILE` sends sources that
are all others, of SIZES KiB each, or of LEAST-MOST KiB by chance. `pages PORT COUNT PROCESS BOUND FILE` does the same with 4 KiB after a start, and
`compare COUNT FILE PAGES` compares what these two left."""
import random
import statistics
import subprocess
import sys
import time

from peaks import resident
from wire import compile_request, exchange


def timed(call, times):
    least = None
    for _ in range(times):
        begin = time.perf_counter()
        call()
        took = time.perf_counter() - begin
        least = took if least is None else min(least, took)
    return least * 1000


def hit(port, path):
    source = b"int a = 1;\n" * (8 * 1024 * 1024 // 11)
    with open(path, "wb") as file:
        file.write(source)
    text = compile_request(b"probe", source)
    assert exchange(port, text).startswith(b"DONE00000001STAT00000000")
    cached = timed(lambda: exchange(port, text), 9)
    summed = timed(lambda: subprocess.run(["sha256sum", path], stdout=subprocess.DEVNULL, check=True), 9)
    print(f"a hit on a source of 8 MiB, with its transfer: {cached:.1f} ms; sha256sum of it, with its start: {summed:.1f} ms; ratio {cached / summed:.2f}")


def send(port, number, size):
    """Sends a source of about this number of bytes that is like no other."""
    body = b"int a;\n" * (size // 7)
    assert exchange(port, compile_request(b"probe", b"// %d\n" % number + body)).startswith(b"DONE00000001STAT00000000")


def fill(port, count, process, bound, sizes, path):
    """Adds to a file what is resident, but for pages of files, after each tenth source of the second half: the median and the largest."""
    least, most = (int(size) * 1024 for size in (sizes.split("-") * 2)[:2])
    choice = random.Random(7)
    seen = []
    for number in range(count):
        send(port, number, choice.randint(least, most))
        if number >= count // 2 and number % 10 == 0:
            seen.append(resident(process, "RssAnon"))
    with open(path, "a", encoding="ascii") as file:
        print(sizes, bound, int(statistics.median(seen)), max(seen), file=file)


def pages(port, count, process, bound, path):
    """Adds to a file how much of the program's files is resident after a number of sources, which differs from start to start."""
    for number in range(count):
        send(port, number, 4096)
    with open(path, "a", encoding="ascii") as file:
        print(bound, resident(process, "RssFile"), file=file)


def compare(count, path, path_of_pages):
    """What each bound takes beside a farmd without a cache."""
    of_files = {}
    with open(path_of_pages, encoding="ascii") as file:
        for line in file:
            bound, size = line.split()
            of_files.setdefault(bound, []).append(int(size))
    starts = len(of_files["0"])
    print(f"resident beside a farmd without a cache, in KiB: what isn't of files, behind {count // 2} to {count} sources, the median and the largest;")
    print(f"  pages of files, the medians of {starts} starts; and the largest with these:")
    without = {}
    with open(path, encoding="ascii") as file:
        for line in file:
            sizes, bound, *numbers = line.split()
            numbers = [int(number) for number in numbers]
            if bound == "0":
                without[sizes] = numbers
                continue
            more = [number - other for number, other in zip(numbers, without[sizes])]
            more_pages = int(statistics.median(of_files[bound]) - statistics.median(of_files["0"]))
            limit = int(bound) * 1024 * 11 // 10
            print(f"  sources of {sizes:>5} KiB, --cache {bound:>2}, limit {limit:>6}: {more[0]:>6} {more[1]:>6} {more_pages:>5} {more[1] + more_pages:>6}")


def main():
    what, *words = sys.argv[1:]
    if what == "hit":
        hit(int(words[0]), words[1])
    elif what == "fill":
        fill(int(words[0]), int(words[1]), int(words[2]), *words[3:])
    elif what == "pages":
        pages(int(words[0]), int(words[1]), int(words[2]), *words[3:])
    else:
        compare(int(words[0]), *words[1:])


main()
