"""Requests with options for farmd: `served PORT RUNS`, `refused PORT RUNS`, `local PORT RUNS`, and `hostile PORT FOLDER --compiler NAME=PATH..`."""
import os
import sys
import time

from checks import end, expect, failures, write
from wire import compile_request, exchange

KIND, PORT = sys.argv[1], int(sys.argv[2])
SECRET = "a line that only this machine has"
REFUSAL = b"not let through: "


def ask(compiler, options, source):
    """What farmd answers to a compile with these options."""
    return exchange(PORT, compile_request(compiler.encode(), source, *(option.encode() for option in options), name=b"a.c"))


def lines():
    for line in sys.stdin.read().split("\n"):
        if line and not line.startswith("# "):
            # options and operands are apart by blanks; only a path that is mapped may have one
            words = line.split(" ")
            is_path = ("-prefix-map=" in words[0] or "-compilation-dir=" in words[0]) and not any(word.startswith("-") for word in words[1:])
            yield [line] if is_path else words


# Of each kind of line how often it runs, what begins the reply, and whether that says that a word isn't let through. 00006f00 is the status 28,416.
REFUSED = b"DONE00000001STAT00006f00"
ANSWERS = {"served": (1, b"DONE00000001", False), "refused": (0, REFUSED, True), "local": (0, REFUSED, False)}


def through():
    """Each line runs, or none does."""
    runs = sys.argv[3]
    count = 0
    for options in lines():
        before = os.path.getsize(runs)
        reply = ask("probe", options, b"int a;\n")
        ran = os.path.getsize(runs) - before
        count += 1
        wanted = ANSWERS[KIND]
        seen = (ran, reply[:len(wanted[1])], REFUSAL in reply)
        expect(f"{' '.join(options)} is to be {KIND}:", seen == wanted, f"{ran} runs, {reply[:90]!r}")
    expect("commands are read", count)
    print(f"{len(failures)} of {count} aren't {KIND}" if failures else f"{count} commands are {KIND}")


def hostile():
    folder = sys.argv[3]
    compilers = [word.partition("=")[0] for word in sys.argv[5::2]]
    outside = os.path.join(folder, "outside")
    write(os.path.join(folder, "secret"), SECRET + "\n")
    sources = [
        b"int f(int *a) { return a[0]; }\n",
        b'#include "%s/secret"\n' % folder.encode(),
        b"-wrapper touch,%s/ran -MD -MF %s/ran\n" % (outside.encode(), outside.encode()),
        b"*cc1:\n%%(cpp)\n\n.i:\ntouch %s/ran\n\n" % outside.encode(),
    ]
    count = 0
    begin = time.monotonic()
    for options in lines():
        for old, new in (("FILE", f"{outside}/wrote"), ("|touch", f"|touch {outside}/ran"), ("/x", f"{outside}/wrote")):
            options = [option.replace(old, new) for option in options]
        for compiler in compilers:
            for source in sources:
                reply = ask(compiler, options, source)
                count += 1
                made = os.listdir(outside)
                expect(f"{compiler} {' '.join(options)}:", REFUSAL in reply and not made, f"made {made}, {reply[:90]!r}")
                for name in made:
                    os.remove(os.path.join(outside, name))
    # the doors serve on
    for compiler in compilers:
        reply = ask(compiler, ["-O2"], sources[0])
        expect(f"{compiler} behind them:", reply.startswith(b"DONE00000001STAT00000000"), f"{reply[:60]!r}")
    left = os.listdir(os.path.join(folder, "tmp"))
    expect("left behind:", not left, left)
    print(f"{count} hostile requests in {time.monotonic() - begin:.1f} s, {len(failures)} of them wrong")


if KIND == "hostile":
    hostile()
else:
    through()
end()
