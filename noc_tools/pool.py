"""Processes that make one thing after the other, side by side, and leave nothing behind however they end."""
import multiprocessing
import os
import shutil
import signal
from collections.abc import Callable, Hashable, Iterable, Iterator, Sequence
from contextlib import suppress
from multiprocessing.connection import Connection, wait
from multiprocessing.process import BaseProcess
from pathlib import Path
from tempfile import TemporaryDirectory
from threading import Thread
from typing import Any, Generic, TypeVar

from .errors import Refused

# The numbers of open files mean the same in a process only where it is forked, which is not how Python begins one by
# itself from 3.14 on.
FORKED = multiprocessing.get_context("fork")
Item = TypeVar("Item")
Made = TypeVar("Made")
# What makes something of an item, with a folder of its process. What stands beside that folder is shared by all.
Make = Callable[[Path, Item], Made]


class Ended(Exception):
    """A process that ended before it had made what was asked for, with its status."""

    def __init__(self, status: int | None) -> None:
        super().__init__(f"it ended with status {status}")


# ---- in the process


def serve(make: Make[Any, Any], pipe: Connection, shared: Path, locked: Iterable[int]) -> None:
    """Makes something of each item that comes, until the script ends this process or is over."""
    os.setpgid(0, 0)
    for file in locked:
        os.close(file)
    signal.signal(signal.SIGTERM, lambda *_: None)
    folder = shared / str(os.getpid())
    folder.mkdir()
    end = Thread(target=end_after, args=(multiprocessing.parent_process(), shared), daemon=True)
    end.start()
    with suppress(EOFError, OSError):
        while True:
            pipe.send(outcome_of(make, folder, pipe.recv()))
    end.join()


def outcome_of(make: Make[Item, Made], folder: Path, item: Item) -> Made | Exception:
    """What is made of an item, or why not."""
    try:
        return make(folder, item)
    except Exception as error:
        return error


def end_after(script: BaseProcess, shared: Path) -> None:
    """Ends this process when the script is over, however that came, with its run and with all files.

    The run ends first, by SIGTERM, which does nothing to this process, so that it misses none of its files.
    """
    script.join()
    os.killpg(0, signal.SIGTERM)
    shutil.rmtree(shared, ignore_errors=True)
    os.killpg(0, signal.SIGKILL)


# ---- in the script


class Member:
    """A process that makes one thing after the other."""

    def __init__(self, make: Make[Any, Any], shared: Path, locked: Iterable[int]) -> None:
        self.group: Hashable = None
        self.pipe, end = multiprocessing.Pipe()
        self.process = FORKED.Process(target=serve, args=(make, end, shared, locked))
        self.process.start()
        end.close()

    def answer(self) -> Any:
        """What it made last, or why not."""
        try:
            return self.pipe.recv()
        except (EOFError, ConnectionResetError):
            self.end()
            return Ended(self.process.exitcode)

    def end(self) -> None:
        """Ends it at once, with the run that it makes."""
        assert self.process.pid is not None
        try:
            os.killpg(self.process.pid, signal.SIGKILL)
        except ProcessLookupError:
            self.process.kill()
        self.process.join()


class Waiting(Generic[Item]):
    """Items that wait, in groups of those that share something."""

    def __init__(self, items: Sequence[Item], group_of: Callable[[Item], Hashable]) -> None:
        self.groups: dict[Hashable, list[tuple[int, Item]]] = {}
        for number, item in enumerate(items):
            self.groups.setdefault(group_of(item), []).append((number, item))
        self.new = list(self.groups)[::-1]

    def next(self, last: Hashable) -> tuple[int, Item]:
        """The next one of the group that a process had last, else the first of a group that none has had, else any."""
        group = last
        while group not in self.groups:
            group = self.new.pop() if self.new else next(iter(self.groups))
        item = self.groups[group].pop(0)
        if not self.groups[group]:
            del self.groups[group]
        return item


class Pool(Generic[Item, Made]):
    """So many processes; of a `with` none is left when it is over, nor any of their files.

    The files that the script has locked are not theirs, so they let go of them. A process that has made one of a group
    of items gets others of it, as long as there are some.
    """

    def __init__(
        self, make: Make[Item, Made], jobs: int, locked: Iterable[int] = (),
        group_of: Callable[[Item], Hashable] = lambda item: None,
    ) -> None:
        check_jobs(jobs)
        self.make, self.jobs, self.locked, self.group_of = make, jobs, locked, group_of
        self.folder = TemporaryDirectory(prefix="noc-tools-")
        self.idle: list[Member] = []
        self.busy: dict[Connection, tuple[Member, int]] = {}

    def __enter__(self) -> "Pool[Item, Made]":
        return self

    def __exit__(self, *details: object) -> None:
        for member in [*self.idle, *(member for member, _ in self.busy.values())]:
            member.end()
        self.folder.cleanup()

    def begin(self, waiting: Waiting[Item]) -> None:
        """Gives an item to a process that has none."""
        member = self.idle.pop() if self.idle else Member(self.make, Path(self.folder.name), self.locked)
        number, item = waiting.next(member.group)
        member.group = self.group_of(item)
        self.busy[member.pipe] = member, number
        with suppress(BrokenPipeError):
            # (of a process that was killed the answer says so)
            member.pipe.send(item)

    def made(
        self, items: Sequence[Item], is_over: Callable[[], bool] = lambda: False
    ) -> Iterator[tuple[int, Made | Exception]]:
        """Each item by its place, with what was made of it or why not, as it comes.

        Once `is_over` says so no further item is begun, and those that are come yet.
        """
        waiting = Waiting(items, self.group_of)
        while waiting.groups or self.busy:
            if waiting.groups and len(self.busy) < self.jobs:
                if is_over():
                    waiting.groups.clear()
                else:
                    self.begin(waiting)
            else:
                yield self.next_made()

    def next_made(self) -> tuple[int, Made | Exception]:
        """The first that comes of those that are begun."""
        pipe = wait(list(self.busy))[0]
        assert isinstance(pipe, Connection)
        member, number = self.busy.pop(pipe)
        found = member.answer()
        if member.process.exitcode is None:
            self.idle.append(member)
        return number, found


def made_in_order(make: Make[Item, Made], items: Sequence[Item], jobs: int) -> Iterator[Made]:
    """What is made of the items, in their order, so many at a time; why one of them is not made is raised."""
    found: dict[int, Made | Exception] = {}
    place = 0
    with Pool(make, jobs) as pool:
        for number, found[number] in pool.made(items):
            while place in found:
                made = found.pop(place)
                if isinstance(made, Exception):
                    raise made
                yield made
                place += 1


def check_jobs(jobs: int) -> None:
    """Refuses a number of runs at a time that is none."""
    if jobs < 1:
        raise Refused("at least one job is needed")
