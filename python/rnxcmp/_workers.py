"""Many inputs in several processes at once. Each process does every n-th input; the answers are returned in the order of the inputs."""

from __future__ import annotations

import mmap
import os
import pickle
import signal

from ._parts import disown_unfinished

TYPE_CHECKING = False
if TYPE_CHECKING:
    from typing import BinaryIO, Callable, Iterator, List, Optional, Sequence, Tuple

_OF_ALL = (signal.SIGINT, signal.SIGHUP, signal.SIGQUIT)  # a terminal sends these to all processes of a run; the first process passes them on


class Workers:
    """Processes that call `work` with each of `inputs`. When they are asked to end, each finishes the input that it has begun."""

    def __init__(self, count: int, work: Callable[[str], object], inputs: Sequence[str]) -> None:
        self._count, self._ends = len(inputs), mmap.mmap(-1, 1)  # memory that all processes share: whether they are asked to end
        self._workers: List[Tuple[int, BinaryIO]] = []
        for first in range(min(count, len(inputs))):
            reader, writer = os.pipe()
            process = os.fork()
            if not process:
                os.close(reader)
                self._answer(writer, work, inputs[first::count])
            os.close(writer)
            self._workers.append((process, os.fdopen(reader, "rb")))

    def _answer(self, writer: int, work: Callable[[str], object], inputs: Sequence[str]) -> None:
        """Writes an answer for each input, and ends this process, which is a worker."""
        status = 1
        try:
            disown_unfinished()
            for number in _OF_ALL:
                signal.signal(number, signal.SIG_IGN)
            for _, file in self._workers:
                file.close()
            with os.fdopen(writer, "wb") as answers:
                for name in inputs:
                    if self._ends[0]:
                        break
                    pickle.dump(work(name), answers)
                    answers.flush()
            status = 0
        except BrokenPipeError:  # the first process was killed
            pass
        finally:
            os._exit(status)

    def ask_to_end(self) -> None:
        """Asks all workers to begin no further input."""
        self._ends[0] = 1

    def answers(self) -> Iterator[Optional[object]]:
        """Returns the answer for each input in order, or None if it isn't done because its process died or all were asked to end."""
        for number in range(self._count):
            process, file = self._workers[number % len(self._workers)]
            try:
                yield pickle.load(file)
            except (EOFError, pickle.UnpicklingError):
                self.ask_to_end()
                yield None

    def died(self) -> int:
        """Waits for all processes; returns how many of them died."""
        return sum(os.waitpid(process, 0)[1] != 0 for process, _ in self._workers)
