"""A farmd whose standard error nobody reads: its lines are dropped and counted, and hold no door. FARMD and PORT are the arguments."""
import os
import subprocess
import sys
import time

import wire
from checks import end, expect

FARMD, PORT = sys.argv[1], int(sys.argv[2])
# a pipe keeps some 700 of these lines
CONNECTIONS = 1000
NO_REQUEST = b"X" * 30


def visit():
    with wire.dial(PORT, timeout=10) as link:
        link.sendall(NO_REQUEST)
        wire.read_all(link)


def read_what_waits(reader):
    text = b""
    try:
        while True:
            text += os.read(reader, 65536)
    except BlockingIOError:
        return text


reader, writer = os.pipe()
os.set_blocking(reader, False)
daemon = subprocess.Popen(
    [FARMD, "--listen", "127.0.0.1", "--port", str(PORT), "--jobs", "2", "--compiler", "probe=/bin/true"],
    stderr=writer, stdout=subprocess.DEVNULL)
os.close(writer)
try:
    for _ in range(100):
        try:
            visit()
            break
        except ConnectionRefusedError:
            time.sleep(0.1)
    longest = 0
    for _ in range(CONNECTIONS):
        begun = time.monotonic()
        visit()
        longest = max(longest, time.monotonic() - begun)
    expect("a connection while nobody reads the lines:", longest < 5, f"{longest:.2f} s")
    before = read_what_waits(reader)
    visit()
    time.sleep(0.5)
    after = read_what_waits(reader)
    expect("the lines that fit:", before.count(b"no reply") < CONNECTIONS, before.count(b"no reply"))
    expect("how many were dropped:", b" lines dropped\n" in after, after)
    expect("the next line:", after.count(b"no reply") == 1, after)
except OSError as error:
    expect("a connection while nobody reads the lines:", False, error)
finally:
    daemon.kill()
    daemon.wait()
end()
