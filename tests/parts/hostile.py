"""Mutated requests for farmd."""
import os
import random
import sys
import threading
import time

import wire
from checks import expect, fail, verdict
from peaks import resident

PORT, PROCESS, RUNS, COUNT, SECONDS = int(sys.argv[1]), int(sys.argv[2]), sys.argv[3], int(sys.argv[4]), float(sys.argv[5])
THREADS = 8


SEEDS = [
    wire.compile_request(b"probe", b"int a = 1;\n"),
    wire.request([b"probe", b"-O2", b"-g", b"-c", b"b.c", b"-o", b"b.o"], b"int b;\n" * 40),
    wire.request([b"sh", b"-c", b"touch x", b"-o", b"a.o"], b""),
    wire.request([b"probe", b"-E", b"a.c"], b"int a;\n"),
    wire.request([b"/bin/sh"], b""),
]


def mutate(rng, text):
    text = bytearray(text)
    for _ in range(rng.choice([0, 1, 1, 1, 2, 4, 16])):
        kind = rng.randrange(6)
        at = rng.randrange(len(text) + 1)
        if kind == 0 and at < len(text):
            text[at] = rng.randrange(256)
        elif kind == 1 and at < len(text):
            text[at] ^= 1 << rng.randrange(8)
        elif kind == 2:
            del text[at:at + rng.randrange(1, 20)]
        elif kind == 3:
            text[at:at] = bytes(rng.randrange(256) for _ in range(rng.randrange(1, 20)))
        elif kind == 4:
            text = text[:at]
        else:
            other = rng.choice(SEEDS)
            text[at:] = other[rng.randrange(len(other)):]
        if not text:
            break
    return bytes(text)


def memory(field):
    """What farmd holds, in MiB."""
    return resident(PROCESS, field) // 1024


class Worker(threading.Thread):
    def __init__(self, seed, count, end):
        super().__init__()
        self.rng, self.count, self.end = random.Random(seed), count, end
        self.sent = self.ran = self.refused = 0
        self.error = None

    def run(self):
        try:
            for _ in range(self.count):
                if self.end < time.monotonic():
                    return
                self.one()
        except Exception as error:
            self.error = error

    def one(self):
        text = mutate(self.rng, self.rng.choice(SEEDS))
        reply = wire.exchange(PORT, text, half_close=True)
        self.sent += 1
        if not reply:
            return
        status = reply[12:24]
        if not reply.startswith(b"DONE00000001STAT"):
            raise ValueError(f"no reply: {reply[:40]!r} to {text!r}")
        if status in (b"STAT00006e00", b"STAT00006f00"):
            self.refused += 1
        else:
            self.ran += 1
            # the first word of a request that is run can only be the table's
            if b"probe" not in text:
                raise ValueError(f"it ran: {text!r}")


def main():
    begin = memory("VmRSS")
    # peers that announce 32 MiB and send nothing of it
    big = SEEDS[0][:SEEDS[0].index(b"DOTI")] + wire.token(b"DOTI", 33554432)
    idle = []
    for _ in range(7):
        link = wire.dial(PORT)
        link.sendall(big)
        idle.append(link)
    time.sleep(0.5)
    announced = memory("VmRSS")
    for link in idle:
        link.close()
    expect("7 announced sources take no memory:", announced - begin <= 16, f"{announced - begin} MiB")
    end = time.monotonic() + SECONDS
    workers = [Worker(seed, COUNT // THREADS, end) for seed in range(THREADS)]
    for worker in workers:
        worker.start()
    for worker in workers:
        worker.join()
    for worker in workers:
        if worker.error:
            fail(f"{worker.error!r}")
    sent, ran, refused = (sum(numbers) for numbers in zip(*((w.sent, w.ran, w.refused) for w in workers)))
    runs = os.path.getsize(RUNS)
    expect("some requests are run, and each run is answered:", 0 < ran == runs, f"{runs} runs, and {ran} replies of runs")
    try:
        reply = wire.exchange(PORT, SEEDS[0], half_close=True)
    except OSError as error:
        reply = repr(error).encode()
    expect("a right request is still answered:", reply.startswith(b"DONE00000001STAT00000000"), reply[:80])
    most = memory("VmHWM")
    # a farmd with checks at run time takes more
    expect("memory stays bounded:", 0 < most <= 256 or "UNPROVED" in os.environ, f"{most} MiB")
    verdict("tests/hostile", f"{sent} requests, {ran} runs, {refused} refused, at most {most} MiB")


main()
