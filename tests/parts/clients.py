"""Clients of farmd that a test wants: they die, half-close, say too much or nothing, or come all at once."""
import os
import socket
import struct
import sys
import threading
import time

from checks import end, expect, fail
from wire import compile_request, dial, exchange, read_all

PORT = int(sys.argv[1])
GOOD = compile_request(b"gcc", b"int a = 1;\n")


def is_answered(reply):
    return reply.startswith(b"DONE00000001STAT00000000SERR00000000SOUT00000000DOTO") and b"\x7fELF" in reply


def four():
    expect("a right request", is_answered(exchange(PORT, GOOD)))
    expect("a compiler that isn't known", b"unknown compiler cc\n" in exchange(PORT, compile_request(b"cc", b"")))
    expect("a peer that is denied", exchange(PORT, b"", source="127.0.0.2") == b"")
    expect("a request that is cut off", exchange(PORT, b"DIST", half_close=True) == b"")


def all_kinds():
    # one that dies in the middle, by a reset
    link = dial(PORT)
    link.sendall(GOOD[:60])
    link.setsockopt(socket.SOL_SOCKET, socket.SO_LINGER, struct.pack("ii", 1, 0))
    link.close()
    # one that dies as soon as its request is sent
    link = dial(PORT)
    link.sendall(GOOD)
    link.setsockopt(socket.SOL_SOCKET, socket.SO_LINGER, struct.pack("ii", 1, 0))
    link.close()
    expect("surplus bytes", is_answered(exchange(PORT, GOOD + b"x" * 1000)))
    expect("a client that half-closes", is_answered(exchange(PORT, GOOD, half_close=True)))
    expect("another protocol", exchange(PORT, b"GET / HTTP/1.0\r\n\r\n") == b"")
    # one that says nothing holds one door and no other
    idle = dial(PORT)
    for _ in range(12):
        expect("beside an idle client", is_answered(exchange(PORT, GOOD)))
    # more at once than there are doors
    answers = []
    threads = [threading.Thread(target=lambda: answers.append(exchange(PORT, GOOD))) for _ in range(64)]
    for thread in threads:
        thread.start()
    for thread in threads:
        thread.join()
    expect("64 at once", len(answers) == 64 and all(map(is_answered, answers)))
    idle.close()


def own_objects(rounds):
    """Two doors at once: one compiler takes its output away and ends later, the other writes its object meanwhile. Each has its own.

    One source is C and the other C++, so that names of a process and a serial are the same for both objects."""
    for number in range(rounds):
        status = number % 2
        answers = {}

        def ask(word, name, wait):
            time.sleep(wait)
            answers[word] = exchange(PORT, compile_request(b"shared", b"x", word, name=name))

        asked = [(b"-fremoves-%d" % status, b"a.c", 0), (b"-fwrites", b"b.cc", 0.2)]
        threads = [threading.Thread(target=ask, args=each) for each in asked]
        for thread in threads:
            thread.start()
        for thread in threads:
            thread.join()
        none, written = answers.get(asked[0][0]), answers.get(b"-fwrites", b"")
        ends = b"DONE00000001STAT%08xSERR00000000SOUT00000000DOTO00000000" % (256 * status)
        expect(f"round {number}: the one that took its output away:", none == ends, none)
        expect(f"round {number}: the one that wrote:", written.endswith(b"DOTO00000010THE OTHER'S OWN\n"), written)


def served():
    expect("a program by a path from farmd's folder", is_answered(exchange(PORT, GOOD)))
    refused = exchange(PORT, compile_request(b"gcc", b"int a;\n", b"-B@x\n"))
    want = b"DONE00000001STAT00006f00SERR0000001efarmd: not let through: -B@x\n\nSOUT00000000DOTO00000000"
    expect("a word that isn't let through:", refused == want, refused)
    expect("a word that is let through, after another", is_answered(exchange(PORT, GOOD)))
    messages = exchange(PORT, compile_request(b"gcc", b"int a = ;\n"))
    expect("messages of the compiler:", b"SERR" in messages and b"input.i:1:9: error" in messages and b"farm-" not in messages, messages)


def never_ends(doors):
    """Each door is given a compile that reads a terminal on which nobody writes, and then its peer goes. An honest request is answered soon after."""
    endless = compile_request(b"gcc", b'asm(".include \\"/dev/ptmx\\"");\n')
    for _ in range(doors):
        link = dial(PORT)
        link.sendall(endless)
        time.sleep(0.2)
        link.close()
    begun = time.monotonic()
    expect("a request after compiles that never end", is_answered(exchange(PORT, GOOD)))
    took = time.monotonic() - begun
    expect("a request after compiles that never end:", took < 5, f"{took:.1f} s")


def while_doors_compile(doors):
    """All doors are at a slow compile: many connect soon, and those who are denied are left at once."""
    slow = [dial(PORT) for _ in range(doors)]
    for link in slow:
        link.sendall(GOOD)
    time.sleep(0.5)
    denied = [dial(PORT, "127.0.0.2") for _ in range(200)]
    many = []
    longest = 0
    for _ in range(300):
        begun = time.monotonic()
        many.append(dial(PORT))
        longest = max(longest, time.monotonic() - begun)
    expect("a peer connects while all doors compile:", longest < 0.5, f"{longest:.2f} s")
    for link in denied:
        link.settimeout(2)
        expect("a denied peer while all doors compile", link.recv(1) == b"")
    for link in denied + many:
        link.close()
    for link in slow:
        expect("the slow compile", is_answered(read_all(link)))


def many_silent(count):
    """Silent peers have all descriptors, and a run gets some of them back."""
    silent = [dial(PORT) for _ in range(count)]
    time.sleep(0.3)
    expect("a run that wants descriptors", is_answered(exchange(PORT, GOOD)))
    for link in silent:
        link.close()


def one():
    expect("one client", is_answered(exchange(PORT, GOOD)))


MODES = {
    "all": all_kinds, "four": four, "one": one, "served": served, "own": lambda: own_objects(int(os.environ.get("ROUNDS", "5"))),
    "endless": lambda: never_ends(2), "busy": lambda: while_doors_compile(2), "silent": lambda: many_silent(60),
}
try:
    MODES[sys.argv[2] if sys.argv[2:] else "all"]()
except OSError as error:
    fail(f"clients.py: {error}")
end()
