"""Work on several recordings side by side, by processes of their own, which end if the work is given up."""
from __future__ import annotations

import contextlib
import functools
import multiprocessing
import os
import signal
from collections.abc import Callable, Collection, Generator, Iterator, Sequence
from multiprocessing.connection import Connection, wait
from multiprocessing.process import BaseProcess
from multiprocessing.sharedctypes import Synchronized
from typing import Any, Generic, TypeVar, cast

from mxf.faults import NO_PROGRAM, OwnFault, ToolFault
from mxf.running import begin_process, held_back, remove_folders

Item = TypeVar("Item")
Answer = TypeVar("Answer")

FAULTS = (ToolFault, OwnFault, OSError)  # of one item; any other is one of this program

# A process that is forked knows all that this one does, so no work has to be told to it.
CONTEXT = multiprocessing.get_context("fork")


class Outcome(Generic[Answer]):
    """What came of work: an answer, or a fault."""

    def __init__(self, work: Callable[[], Answer]) -> None:
        self.fault: Exception | None = None
        self.answer: Answer | None = None
        try:
            self.answer = work()
        except FAULTS as fault:
            self.fault = fault

    def result(self) -> Answer:
        """The answer, or else the fault."""
        if self.fault is not None:
            raise self.fault
        return cast(Answer, self.answer)


Done = tuple[Item, Outcome[Answer]]

# Work on items one after another, which may begin with one before it is done with the one ahead.
Stream = Callable[[Iterator[Item]], Generator[Done[Item, Answer], None, None]]


@contextlib.contextmanager
def beside(stream: Stream[Item, Answer], items: Sequence[Item], jobs: int) -> Iterator[Iterator[Done[Item, Answer]]]:
    """The items, each when the work on it is done, whatever comes of that; so many jobs go on at once. Those of one job come
    in their order. If the block ends before they do, their calls end."""
    workers: dict[Connection, BaseProcess] = {}
    begun = CONTEXT.Value("q", 0)
    try:
        for _ in range(min(jobs, len(items))):
            receiver, sender = CONTEXT.Pipe(duplex=False)
            words = (stream, items, begun, sender, [*workers, receiver])
            with held_back():
                workers[receiver] = started(words)
            sender.close()
        yield done_of(workers)
    except BaseException:
        end(workers.values())
        raise
    finally:
        for receiver in workers:
            receiver.close()
        for worker in multiprocessing.active_children():
            worker.join()


def started(words: tuple[Any, ...]) -> BaseProcess:
    """A process that serves by these words, and leads a group of its own."""
    worker = CONTEXT.Process(target=serve, args=words)
    worker.start()
    lead(worker.pid)
    return worker


def lead(pid: int | None) -> None:
    """Lets a process, or with 0 this one, lead a group of its own. The process itself and the one that started it do so, since
    either may be the first."""
    with contextlib.suppress(OSError):
        os.setpgid(pid or 0, pid or 0)


def end(workers: Collection[BaseProcess]) -> None:
    """Ends processes and their calls, also those that begin meanwhile: a process and its calls are one group."""
    for worker in workers:
        end_group(worker)
    for worker in workers:
        worker.join()
        end_group(worker)


def end_group(worker: BaseProcess) -> None:
    """Ends what is left of the group of a process."""
    assert worker.pid is not None  # it was started
    with contextlib.suppress(ProcessLookupError):
        os.killpg(worker.pid, signal.SIGTERM)


def done_of(workers: dict[Connection, BaseProcess]) -> Iterator[Done[Item, Answer]]:
    """What the workers are done with, as it comes."""
    receivers = list(workers)
    while receivers:
        for receiver in cast("list[Connection]", wait(receivers)):
            try:
                done: Done[Item, Answer] = receiver.recv()
            except EOFError:
                receivers.remove(receiver)
                workers[receiver].join()
                if workers[receiver].exitcode:
                    raise OwnFault(NO_PROGRAM, "a process of this program ended before its work was done") from None
            else:
                yield done


def serve(
    stream: Stream[Item, Answer],
    items: Sequence[Item],
    begun: Synchronized[int],
    sender: Connection,
    others: list[Connection],
) -> None:
    """Sends what is done of items, until none is left, or nobody receives what is sent. This process leads a group of its own,
    which an interrupt of a terminal doesn't reach."""
    lead(0)
    try:
        begin_process()
        for receiver in others:
            receiver.close()  # so that sending fails where that program is killed
        with contextlib.closing(stream(taken(items, begun))) as each:
            for done in each:
                sender.send(done)
    except (KeyboardInterrupt, BrokenPipeError):
        pass
    finally:
        remove_folders()


def taken(items: Sequence[Item], begun: Synchronized[int]) -> Iterator[Item]:
    """Items, one after another, that no other process takes: all share the number of items that were begun."""
    while True:
        with begun.get_lock():
            number, begun.value = begun.value, begun.value + 1
        if number >= len(items):
            return
        yield items[number]


def one_by_one(work: Callable[[Item], Answer]) -> Stream[Item, Answer]:
    """The stream of work on items that are done one after another."""

    def stream(items: Iterator[Item]) -> Generator[Done[Item, Answer], None, None]:
        """Each item with what came of it."""
        for item in items:
            yield item, Outcome(functools.partial(work, item))

    return stream
