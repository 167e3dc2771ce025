"""Progress: one line that is rewritten on a terminal, plain lines every ten seconds otherwise."""
import sys
import time

INTERVAL = {True: 0.2, False: 10.0}


def duration(seconds):
    minutes, seconds = divmod(round(seconds), 60)
    hours, minutes = divmod(minutes, 60)
    return f"{hours}:{minutes:02}:{seconds:02}" if hours else f"{minutes}:{seconds:02}"


class Progress:
    """Counts executed and refused acts."""

    def __init__(self, total, already=0, stream=None):
        self.total, self.already = total, already
        self.stream = stream or sys.stderr
        self.is_terminal = self.stream.isatty()
        self.done = self.refused = 0
        self.began = self.shown = time.monotonic()
        self.phase, self.is_line_open = "", False

    def step(self, phase, is_refused=False):
        self.done += 1
        self.refused += is_refused
        self.phase = phase
        if self.done % 16 == 0 or self.is_terminal:
            now = time.monotonic()
            if now - self.shown >= INTERVAL[self.is_terminal]:
                self.show(now)

    def skip(self, count):
        """Counts acts that were found in the register."""
        self.already += count

    def line(self, now):
        elapsed = max(now - self.began, 1e-9)
        rate, left = self.done / elapsed, self.total - self.already - self.done
        remaining = duration(left / rate) if rate > 0 else "?"
        return (f"{self.phase:8} {self.already + self.done:,} of {self.total:,} acts, {self.refused:,} refused, {rate:,.0f}/s, "
                f"{remaining} left")

    def show(self, now):
        self.shown = now
        if self.is_terminal:
            self.stream.write("\r" + self.line(now) + "\x1b[K")
            self.is_line_open = True
        else:
            self.stream.write(self.line(now) + "\n")
        self.stream.flush()

    def report(self, text):
        """Prints a line of its own."""
        self.end_line()
        self.stream.write(text + "\n")
        self.stream.flush()

    def end_line(self):
        if self.is_line_open:
            self.stream.write("\r\x1b[K")
            self.is_line_open = False

    def finish(self):
        self.end_line()
        elapsed = time.monotonic() - self.began
        self.stream.write(f"{self.done:,} acts in {elapsed:.1f} s ({self.done / max(elapsed, 1e-9):,.0f}/s)\n")
        self.stream.flush()
