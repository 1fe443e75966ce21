"""The resident size of a process, its children left out. What wait4 says of it begins with the size of whoever started it."""
import threading
import time


def resident(process, field="VmRSS"):
    """The resident size of a process, or another field of its status, in KiB; 0 if it is gone."""
    try:
        with open(f"/proc/{process}/status", encoding="ascii") as file:
            return next((int(line.split()[1]) for line in file if line.startswith(field)), 0)
    except OSError:
        return 0


class Peak:
    """The largest resident size of a process, which is looked at until it ends."""

    def __init__(self, process):
        self.process, self.most = process, 0
        self.thread = threading.Thread(target=self.look, daemon=True)
        self.thread.start()

    def look(self):
        while True:
            seen = resident(self.process, "VmHWM")
            if not seen:
                return
            self.most = max(self.most, seen)
            time.sleep(0.001)

    def kib(self):
        self.thread.join()
        return self.most
