"""Builds by many workers at a host of this script's own: a worker that waits for a slot sleeps, and many large jobs take bounded memory."""
import os
import subprocess
import sys
import time

import wire
from checks import end, expect
from peaks import Peak

REPLY = wire.reply_head(4) + b"OBJ\n"
MIB = 1 << 20


def host(delay):
    """Starts a host that reads a request, waits, and answers with an object; gives its port."""

    def serve(link):
        wire.read_request(link)
        time.sleep(delay)
        link.sendall(REPLY)

    return wire.start_host(serve)


def build(farm, port, limit, workers, count):
    """Builds this number of preprocessed sources; gives the seconds, those of the processor, and the largest resident size in KiB."""
    jobs = "".join(f"gcc -c s{k}.i -o s{k}.o\n" for k in range(1, count + 1))
    words = [farm, "build", "--hosts", f"127.0.0.1:{port}/{limit}", "--workers", str(workers), "--no-fallback"]
    begin = time.monotonic()
    child = subprocess.Popen(words, stdin=subprocess.PIPE, stdout=subprocess.PIPE, text=True)
    child.stdin.write(jobs)
    child.stdin.close()
    peak = Peak(child.pid)
    out = child.stdout.read()
    _, status, used = os.wait4(child.pid, 0)
    took = time.monotonic() - begin
    wanted = "".join(f"{k} remote 127.0.0.1:{port} stat 00000000\n" for k in range(1, count + 1)) + f"total {count} ok {count}\n"
    expect(f"{workers} workers, the report:", status == 0 and out == wanted, (status, out[-200:]))
    lost = [k for k in range(1, count + 1) if not is_made(f"s{k}.o")]
    expect(f"{workers} workers, the objects:", not lost, lost[:5])
    return took, used.ru_utime + used.ru_stime, peak.kib()


def is_made(path):
    """Whether the host's object is there, which is taken away."""
    if not os.path.exists(path):
        return False
    with open(path, "rb") as file:
        held = file.read()
    os.remove(path)
    return held == b"OBJ\n"


def source(count, size):
    with open("s1.i", "wb") as file:
        file.write(b"int a;\n".ljust(size, b" "))
    for k in range(2, count + 1):
        os.link("s1.i", f"s{k}.i")


def main():
    farm = os.path.abspath(sys.argv[1])
    os.makedirs("many")
    os.chdir("many")
    source(512, MIB)
    took, busy, _ = build(farm, host(0.5), 1, 8, 6)
    print(f"  8 workers at one slot: {took:.2f} s, of which {busy:.2f} s of processor time")
    expect("a worker that waits takes no processor time", took >= 3 and busy < 0.3, (took, busy))
    for workers in (1, 4):
        took, _, peak = build(farm, host(0), 16, workers, 512)
        print(f"  512 jobs of 1 MiB, {workers} workers: {took:.2f} s, at most {peak} KiB resident")
        expect(f"{workers} workers, the memory:", 0 < peak < 141 * 1024 * workers, f"{peak} KiB")
    end()


main()
