"""Clients of a farmd that holds doors for nobody: of ten one drips from its first byte, one drips after some bytes, one is silent, one is denied,
one does the like after its reply, and the others are answered.

PORT, CONNECTIONS and how many at once are the arguments, and the longest that an answer may take, in seconds: 2 by default. The farmd
denies 127.0.0.2 and lets in all else.
"""
import random
import resource
import sys
import threading
import time

import wire
from checks import end, expect

PORT, CONNECTIONS, AT_ONCE = int(sys.argv[1]), int(sys.argv[2]), int(sys.argv[3])
LONGEST = float(sys.argv[4]) if sys.argv[4:] else 2.0
REQUEST = wire.compile_request(b"probe", b"x")
REPLY = b"DONE00000001STAT00000000SERR00000000SOUT00000000DOTO00000000"
stop = threading.Event()
lock = threading.Lock()
took, wrong, kinds = [], [], {}


def drip(link, text=b"x" * 100):
    """Sends a byte of the text now and then for as long as it can, and never reads."""
    for at in range(len(text)):
        if stop.wait(0.3):
            return
        link.send(text[at:at + 1])


def ask():
    begun = time.monotonic()
    with wire.dial(PORT) as link:
        link.sendall(REQUEST)
        reply = wire.read_all(link)
    with lock:
        took.append(time.monotonic() - begun)
        if reply != REPLY:
            wrong.append(reply)


def after_reply(then):
    """Has a whole request answered, and doesn't end."""
    with wire.dial(PORT) as link:
        link.sendall(REQUEST)
        wire.read_all(link)
        then(link)


def before_request(then):
    """Sends no whole request."""
    with wire.dial(PORT) as link:
        then(link)


def drip_behind(link):
    """Sends a part of a request at once, and drips the next part."""
    link.sendall(REQUEST[:40])
    drip(link, REQUEST[40:-1])


def denied(then):
    with wire.dial(PORT, "127.0.0.2") as link:
        then(link)


def wait(link):
    stop.wait(10)


KINDS = {
    "drips from its first byte": lambda: before_request(lambda link: drip(link, REQUEST[:-1])),
    "drips behind some bytes": lambda: before_request(drip_behind),
    "is silent": lambda: before_request(wait),
    "is denied and drips": lambda: denied(drip),
    "is denied and silent": lambda: denied(wait),
    "drips after its reply": lambda: after_reply(drip),
    "is silent after its reply": lambda: after_reply(wait),
}
CHOICES = [
    ["drips from its first byte"], ["drips behind some bytes"], ["is silent"],
    ["is denied and drips", "is denied and silent"], ["drips after its reply", "is silent after its reply"],
]


def meet(number):
    kind = random.choice(CHOICES[number % 10]) if number % 10 < len(CHOICES) else None
    with lock:
        kinds[kind or "is answered"] = kinds.get(kind or "is answered", 0) + 1
    try:
        KINDS[kind]() if kind else ask()
    except OSError as error:
        if not kind:
            with lock:
                wrong.append(error)


numbers = iter(range(CONNECTIONS))


def work():
    while True:
        with lock:
            number = next(numbers, None)
        if number is None:
            return
        if number % 10 < len(CHOICES):
            # it stays for its time, and others come meanwhile
            threading.Thread(target=meet, args=(number,), daemon=True).start()
        else:
            meet(number)


# each connection has a descriptor
limit = resource.getrlimit(resource.RLIMIT_NOFILE)[1]
resource.setrlimit(resource.RLIMIT_NOFILE, (limit, limit))
begun = time.monotonic()
threads = [threading.Thread(target=work) for _ in range(AT_ONCE)]
for thread in threads:
    thread.start()
for thread in threads:
    thread.join()
stop.set()
took.sort()
held = len(took) and took[-1]
print(f"{CONNECTIONS} connections in {time.monotonic() - begun:.1f} s, {', '.join(f'{count} of which each {kind}' for kind, count in kinds.items())}: "
      f"answers took {took[len(took) // 2]:.2f} s (median), {took[int(len(took) * 0.99)]:.2f} (of a hundred the longest), {held:.2f} at most")
asked = sum(number % 10 >= len(CHOICES) for number in range(CONNECTIONS))
expect("doors.py:", len(took) == asked, f"{len(took)} of {asked} are answered")
expect("doors.py:", not wrong and held <= LONGEST, f"{len(wrong)} wrong {wrong[:3]}, the longest answer took {held:.2f} s")
end()
