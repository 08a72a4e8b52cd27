"""Says on standard error how far a build is: at a terminal on one line, which is rewritten each second, and else on a
line from time to time.
"""
import os
import sys
import threading
import time

SECONDS_BETWEEN_LINES = 5


class Progress:
    """What a build under this name is at, and its time so far. In a log it says this at most once in a few seconds, or
    never if it is quiet.
    """

    def __init__(self, name, is_quiet=False):
        self.name, self.is_quiet, self.text = name, is_quiet, ""
        self.began, self.said = time.monotonic(), -SECONDS_BETWEEN_LINES
        self.lock = threading.RLock()
        self.is_terminal = sys.stderr.isatty()

    def __enter__(self):
        if self.is_terminal:
            threading.Thread(target=self.rewrite, daemon=True).start()
        return self

    def __exit__(self, *_):
        with self.lock:
            self.clear()
            self.text = ""

    def rewrite(self):
        while True:
            time.sleep(1)
            with self.lock:
                self.draw()

    def clear(self):
        if self.is_terminal and self.text:
            print("\r\x1b[K", end="", file=sys.stderr, flush=True)

    def draw(self):
        if self.is_terminal and self.text:
            width = (os.get_terminal_size(sys.stderr.fileno()).columns or 80) - 1
            print(f"\r{self.line()[:width]}\x1b[K", end="", file=sys.stderr, flush=True)

    def line(self):
        minutes, seconds = divmod(int(time.monotonic() - self.began), 60)
        return f"{self.name}: {self.text}, {minutes}:{seconds:02}"

    def at(self, text):
        """Notes what the build is at."""
        with self.lock:
            self.text = text
            now = time.monotonic()
            if self.is_terminal:
                self.draw()
            elif not self.is_quiet and now - self.said >= SECONDS_BETWEEN_LINES:
                self.said = now
                print(self.line(), file=sys.stderr, flush=True)

    def say(self, text):
        """Says something on a line that stays."""
        with self.lock:
            self.clear()
            print(f"{self.name}: {text}", file=sys.stderr, flush=True)
            self.draw()
