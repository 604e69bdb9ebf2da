#!/usr/bin/env python3
"""Answers a call of ./noc for which a program has to be proved and built.

    answer.py PROGRAM [--prove] [WORD..]

While the program is proved and built, the sources answer first, compiled with checks and not proved yet (look.py).
Their answer goes to standard output, and a sentence on standard error says what it is. At the end the program answers
the same call, and a line says whether it gives the same bytes. With --prove there is no first answer. Nor is there one
where neither words nor a text are given, where a text is to be typed, or where the kit gives none: the program answers
at the end then.

The look runs beside the proof where there are processors and memory for both, else before it. An interrupt leaves the
answer that was given, and keeps what was proved. The exit status is that of the program. It is 1 where there is none,
or where it gives another answer than the first, and 7 where the first could not be written.
"""
import os
import select
import signal
import subprocess
import sys
from pathlib import Path
from threading import Thread

from build import MEMORY, OUT, TOP, Beside, Group, Words, build, free_memory, told
from look import Given, has_text, new_room, take

COMES = "noc: the sources are compiled with checks for a first answer, which takes some 75 s once"
FIRST = "noc: this answer is of the sources, compiled with checks and not proved yet (Ctrl-C keeps it)"
SAME = "noc: the proved program gives the same bytes"
# Where the answer of the program stands if it is another one.
OTHER = OUT / "answer"


class FirstAnswer(Beside):
    """The answer of the sources to a call, and then that of the program."""

    def __init__(self, words: list[str], room: Path):
        self.words, self.room = words, room
        # What is given, once this waits for a build; the look at it; who writes its answer, and why that failed.
        self.call: Given | None = None
        self.look: Group | None = None
        self.writer: Thread | None = None
        self.failure: OSError | None = None

    def begin(self) -> None:
        """Takes what is given, and begins the look. It is over when this returns where it has no room beside a
        build."""
        if self.call or not self.words and not has_text():
            return
        self.call = take(self.room, self.words)
        if not self.words and not self.call.stdin.stat().st_size:
            return
        print(COMES, file=sys.stderr, flush=True)
        with (self.room / "why").open("wb") as why:
            words: Words = [sys.executable, TOP / "builder/look.py", "--in", self.room]
            self.look = Group([*words, *self.call.words], stdout=subprocess.DEVNULL, stderr=why)
        if len(os.sched_getaffinity(0)) == 1 or free_memory() < 2 * MEMORY:
            self.look.run.wait()
            self.go_on()

    def is_under_way(self) -> bool:
        return self.look is not None and self.look.run.poll() is None

    def go_on(self) -> None:
        """Gives the answer once it is there."""
        if self.look is None or self.is_under_way():
            return
        self.look.end()
        self.look = None
        if sys.stderr.isatty():
            print("\r\033[K", end="", file=sys.stderr, flush=True)
        if (self.room / "status").exists():
            self.give()
        else:
            lines = [it for it in (self.room / "why").read_text().splitlines() if it and not it.startswith("run=")]
            print(f"noc: the sources give no first answer: {(lines or ['nobody says why'])[-1]}", file=sys.stderr)

    def give(self) -> None:
        """Writes the answer, by a thread since who reads it may be slow."""
        self.writer = Thread(target=self.write, daemon=True)
        self.writer.start()
        self.writer.join(1)
        print((self.room / "stderr").read_text(), end="", file=sys.stderr)
        print(FIRST, file=sys.stderr, flush=True)

    def write(self) -> None:
        """Writes it, also where standard output does not block."""
        left = memoryview((self.room / "stdout").read_bytes())
        try:
            while left:
                try:
                    left = left[os.write(1, left):]
                except BlockingIOError:
                    select.select([], [1], [])
        except OSError as failure:
            self.failure = failure

    def end(self) -> None:
        """Ends a look that is still under way."""
        if self.look:
            self.look.end()
            self.look = None

    def answer(self, program: str, call: Given) -> int:
        """Has the program answer what was given, on standard output if nothing did yet; returns the status."""
        self.end()
        to = subprocess.PIPE if self.writer else None
        with call.stdin.open("rb") as text:
            ran = subprocess.run([OUT / program, *call.words], cwd=call.folder, stdin=text, stdout=to, stderr=to)
        if not self.writer:
            return status_of(ran)
        self.writer.join()
        if self.failure:
            print(f"noc: the answer could not be written: {self.failure.strerror}", file=sys.stderr)
            return 7
        return self.compared(status_of(ran), ran.stdout, ran.stderr)

    def compared(self, status: int, out: bytes, said: bytes) -> int:
        """Says whether the program answers as the sources did; returns the status."""
        first = [(self.room / name).read_bytes() for name in ("status", "stdout", "stderr")]
        if first == [str(status).encode(), out, said]:
            print(SAME, file=sys.stderr)
            return status
        OTHER.write_bytes(out)
        print(f"noc: the proved program gives another answer, with status {status}, which is in {OTHER}",
              file=sys.stderr)
        sys.stderr.buffer.write(said)
        return 1


def status_of(ran: "subprocess.CompletedProcess[bytes]") -> int:
    """The status of a program as a shell tells it."""
    return ran.returncode if ran.returncode >= 0 else 128 - ran.returncode


def main(program: str, words: list[str]) -> int:
    """Answers a call; returns the status where the program does not take the place of this."""
    if words[:1] == ["--prove"]:
        words = words[1:]
        build(program, Beside())
    else:
        with new_room() as room:
            first = FirstAnswer(words, room)
            try:
                build(program, first)
                if first.call:
                    return first.answer(program, first.call)
            finally:
                first.end()
    # Nothing of what is given was read. Python ignores these two.
    for number in (signal.SIGPIPE, signal.SIGXFSZ):
        signal.signal(number, signal.SIG_DFL)
    os.execv(OUT / program, [str(OUT / program), *words])


if __name__ == "__main__":
    with told():
        sys.exit(main(sys.argv[1], sys.argv[2:]))
