"""PORT PROGRAM REQUESTS CLIENTS SOURCES SIZE: sends REQUESTS requests for the compiler PROGRAM, by CLIENTS clients at one time. Each has a source that is picked
by chance among SOURCES sources of SIZE bytes. Each reply is compared whole with that of a compiler that leaves `object of ` and its source."""
import random
import sys
import threading

from wire import compile_request, exchange, token


def source_of(number, size):
    """A source like no other, of the given size."""
    head = b"// %d\n" % number
    return head + b"%07d\n" % number * ((size - len(head)) // 8)


def reply_of(source):
    made = b"object of " + source
    return token(b"DONE", 1) + token(b"STAT", 0) + token(b"SERR", 0) + token(b"SOUT", 0) + token(b"DOTO", len(made)) + made


def client(port, program, requests, sources, size, choice, wrong):
    for _ in range(requests):
        source = source_of(choice.randrange(sources), size)
        if exchange(port, compile_request(program, source)) != reply_of(source):
            wrong.append(source[:20])


def main():
    port, program, requests, clients, sources, size = sys.argv[1:]
    clients = int(clients)
    wrong = []
    threads = [
        threading.Thread(
            target=client,
            args=(int(port), program.encode(), int(requests) // clients, int(sources), int(size), random.Random(number), wrong),
        )
        for number in range(clients)
    ]
    for thread in threads:
        thread.start()
    for thread in threads:
        thread.join()
    if wrong:
        sys.exit(f"{len(wrong)} of {requests} replies were wrong, as that of {wrong[0]!r}")


main()
