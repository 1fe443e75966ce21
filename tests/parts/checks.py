"""What the checks in Python share: what isn't as it should be is printed and counted, and decides how a check ends."""
import contextlib
import os
import shutil
import signal
import sys
import tempfile

failures = []


def fail(what):
    """Something isn't as it should be."""
    failures.append(what)
    print(f"FAIL {what}", flush=True)


def expect(name, holds, seen=""):
    if not holds:
        fail(f"{name} {seen}")


def end():
    """Ends a part of a check by what failed."""
    sys.exit(1 if failures else 0)


def verdict(check, text=""):
    """Ends a check by what failed, and says so, with this text after that it passed."""
    print(f"{check}: {len(failures)} failed" if failures else f"{check}: passed{text and ', '}{text}")
    end()


@contextlib.contextmanager
def work_folder():
    """A folder for the files of a check and for temporary ones. It is gone at the end, also if the check is ended from outside."""
    for number in (signal.SIGHUP, signal.SIGTERM):
        if signal.getsignal(number) != signal.SIG_IGN:  # nohup has a hang-up ignored
            signal.signal(number, lambda taken, _: sys.exit(128 + taken))
    folder = tempfile.mkdtemp()
    try:
        os.environ["TMPDIR"] = folder
        yield folder
    finally:
        shutil.rmtree(folder, ignore_errors=True)


def write(path, text):
    with open(path, "w", encoding="ascii") as file:
        file.write(text)


def write_program(path, text):
    write(path, text)
    os.chmod(path, 0o755)
