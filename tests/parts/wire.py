"""Texts of protocol 1 of distcc: a client's requests, and a host that reads them and whose answers are the script's."""
import socket
import threading


def token(name, number):
    return b"%s%08x" % (name, number)


def compile_words(compiler, *options, name=b"a.i"):
    """The words of a compile."""
    return [compiler, *options, b"-c", name, b"-o", b"a.o"]


def request(words, source):
    text = token(b"DIST", 1) + token(b"ARGC", len(words))
    for word in words:
        text += token(b"ARGV", len(word)) + word
    return text + token(b"DOTI", len(source)) + source


def compile_request(compiler, source, *options, name=b"a.i"):
    return request(compile_words(compiler, *options, name=name), source)


# of linux/in.h: a port is chosen as the link is made and not before, so that one whose link to another port waits to end will do
IP_BIND_ADDRESS_NO_PORT = 24


def dial(port, source="127.0.0.1", timeout=60):
    link = socket.socket()
    try:
        link.settimeout(timeout)
        link.setsockopt(socket.IPPROTO_IP, IP_BIND_ADDRESS_NO_PORT, 1)
        link.bind((source, 0))
        link.connect(("127.0.0.1", port))
    except OSError:
        link.close()
        raise
    return link


def read_all(link):
    """What comes until the end or a reset."""
    text = b""
    while True:
        try:
            piece = link.recv(65536)
        except ConnectionResetError:
            return text
        if not piece:
            return text
        text += piece


def exchange(port, text, half_close=False, source="127.0.0.1"):
    """What a daemon at this port answers to a text, however it ends the link."""
    with dial(port, source) as link:
        try:
            link.sendall(text)
            if half_close:
                link.shutdown(socket.SHUT_WR)
        except OSError:
            pass
        return read_all(link)


def read_exactly(link, count):
    parts = []
    while count:
        part = link.recv(min(count, 1 << 16))
        if not part:
            raise EOFError
        parts.append(part)
        count -= len(part)
    return b"".join(parts)


def read_field(link):
    head = read_exactly(link, 12)
    return head[:4], int(head[4:], 16)


def read_request(link):
    """The source of a whole request."""
    read_field(link)
    _, count = read_field(link)
    for _ in range(count):
        _, length = read_field(link)
        read_exactly(link, length)
    _, length = read_field(link)
    return read_exactly(link, length)


def reply_head(size):
    """What comes before an object of this number of bytes."""
    return token(b"DONE", 1) + token(b"STAT", 0) + token(b"SERR", 0) + token(b"SOUT", 0) + token(b"DOTO", size)


def start_host(serve):
    """Starts a host that hands each link to `serve`, in a thread of its own; gives its port."""
    door = socket.create_server(("127.0.0.1", 0), backlog=64)

    def meet(link):
        with link:
            try:
                serve(link)
            except (OSError, EOFError, ValueError, IndexError):
                pass

    def accept():
        while True:
            link, _ = door.accept()
            threading.Thread(target=meet, args=(link,), daemon=True).start()

    threading.Thread(target=accept, daemon=True).start()
    return door.getsockname()[1]
