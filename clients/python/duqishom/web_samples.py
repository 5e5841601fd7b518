"""Samples of a gateway, one every two seconds: its counts, those of its store, and how long its program took to answer."""

from __future__ import annotations

import threading
import time
from collections import deque
from collections.abc import Callable, Mapping, Sequence
from contextlib import suppress
from dataclasses import dataclass, field
from itertools import dropwhile, pairwise
from typing import Any

from duqishom.batches import answers_of, request_frames
from duqishom.connection import RequestTimedOut
from duqishom.counted import Counted, Number, Statistics
from duqishom.figures import duration
from duqishom.operations import Operation
from duqishom.program import ProgramEnded
from duqishom.refusals import BadRequest, NoMemory, Refused
from duqishom.remote import Gateway
from duqishom.reports import Status, status_by
from duqishom.statistics import STORE, prometheus, store_metrics

# The seconds between two samples, the most samples that are kept, and the seconds after which they aren't.
INTERVAL = 2.0
MOST_SAMPLES = 300
SPAN = INTERVAL * MOST_SAMPLES

# The seconds after which a request without an answer counts as a failure.
PATIENCE = 10.0

# The number of intervals over which a rate is shown.
RECENT = 5


@dataclass(frozen=True)
class Sample:
    """The counts of a gateway and of its store at a moment of the monotonic clock, the same as metrics of Prometheus, and the
    seconds that its program took to answer."""

    at: float
    told: Mapping[str, Counted]
    metrics: str
    answer: float

    @property
    def up(self) -> float:
        """The seconds since the gateway's start."""
        return self.alone("seconds")

    def alone(self, name: str) -> Number:
        """The number under a name, 0 if the gateway doesn't count it."""
        number = self.told.get(name, 0)
        return 0 if isinstance(number, Mapping) else number

    def group(self, *names: str) -> dict[str, Number]:
        """The numbers under names, none if the gateway doesn't count them."""
        counted: Counted = self.told
        for name in names:
            counted = counted.get(name, {}) if isinstance(counted, Mapping) else {}
        if not isinstance(counted, Mapping):
            return {}
        return {part: number for part, number in counted.items() if not isinstance(number, Mapping)}

    def number(self, name: str, part: str) -> Number:
        """One of the numbers under a name, 0 if the gateway doesn't count it."""
        counted = self.told.get(name)
        number = counted.get(part, 0) if isinstance(counted, Mapping) else 0
        return 0 if isinstance(number, Mapping) else number


# A function from a sample to one of its numbers.
Measure = Callable[[Sample], Number]
Samples = Sequence[Sample | None]


def measure(name: str, part: str) -> Measure:
    """The function from a sample to this number of its counts."""
    return lambda sample: sample.number(name, part)


@dataclass(frozen=True)
class View:
    """The last samples of a gateway, the oldest first, with None where it didn't answer, the reason why it doesn't
    answer now, if it doesn't, and the moment of this view."""

    samples: Samples
    failure: str | None
    at: float = field(default_factory=time.monotonic)

    def last(self) -> Sample | None:
        """The last sample that the gateway answered."""
        return next((sample for sample in reversed(self.samples) if sample is not None), None)


class NoAnswer(Exception):
    """The gateway, or its program, hasn't answered in time. The next request waits for both replies."""


class Sampler:
    """Takes samples of the gateway at a socket, over one connection, which is made anew if it ends."""

    def __init__(self, path: str) -> None:
        self.path = path
        self.is_ready = threading.Event()
        self._gateway: Gateway | None = None
        self._late: tuple[str, float] | None = None
        self._lock = threading.Lock()
        self._samples: deque[Sample | None] = deque(maxlen=MOST_SAMPLES)
        self._failure: str | None = f"the gateway at {path} hasn't been asked yet"

    def view(self) -> View:
        """What is known now. It may be called by any thread."""
        since = time.monotonic() - SPAN
        with self._lock:
            fresh = dropwhile(lambda sample: sample is None or sample.at < since, self._samples)
            return View(tuple(fresh), self._failure)

    def run(self) -> None:
        """Takes samples for ever."""
        while True:
            began = time.monotonic()
            self.take()
            time.sleep(max(0.0, began + INTERVAL - time.monotonic()))

    def take(self) -> None:
        """Takes one sample, or records why there is none. After a late answer the connection stays: another one might
        find no place."""
        sample, failure = None, None
        try:
            sample = self._sample()
        except NoAnswer as error:
            failure = str(error)
        except (FileNotFoundError, ConnectionRefusedError):
            failure = f"no gateway serves {self.path}"
        except (OSError, ProgramEnded, Refused) as error:
            failure = str(error)
        except Exception as error:  # Anything may serve at the socket
            failure = f"the counts of {self.path} aren't those of a gateway of this version: {error}"
        if failure is not None and self._late is None:
            self._leave()
        with self._lock:
            self._samples.append(sample)
            self._failure = failure
        self.is_ready.set()

    def _sample(self) -> Sample:
        [told] = self._ask("the gateway", [Statistics()])
        if isinstance(told, Refused):
            raise told
        metrics = [*prometheus(told)]
        began = time.monotonic()
        took = list[float]()

        def ask(trip: list[Status]) -> list[Any]:
            answers = self._ask("the program", trip)
            took.append(time.monotonic() - began)
            return answers

        with suppress(BadRequest, NoMemory):
            told[STORE] = status_by(ask).counts()
            metrics += store_metrics(told)
        return Sample(began, told, "".join(f"{line}\n" for line in metrics), took[0])

    def _ask(self, who: str, operations: Sequence[Operation[Any]]) -> list[Any]:
        """The answers to requests. NoAnswer if they don't come in time."""
        self._gateway = self._gateway or Gateway(self.path)
        (who, since), self._late = self._late or (who, time.monotonic()), None
        try:
            replies = self._gateway.ask(*request_frames(operations), PATIENCE)
        except RequestTimedOut:
            self._late = who, since
            raise NoAnswer(f"{who} hasn't answered for {duration(time.monotonic() - since)}") from None
        return answers_of(operations, replies, is_remote=True)

    def _leave(self) -> None:
        """Closes the connection."""
        gateway, self._gateway = self._gateway, None
        if gateway is not None:
            with suppress(OSError):
                gateway.close()


def rate(earlier: Sample | None, later: Sample | None, of: Measure) -> float | None:
    """How much a number has grown a second between two samples. None if one is missing, or if they are of two
    gateways."""
    if earlier is None or later is None or not is_same_gateway(earlier, later) or later.at <= earlier.at:
        return None
    return (of(later) - of(earlier)) / (later.at - earlier.at)


def is_same_gateway(earlier: Sample, later: Sample) -> bool:
    """Whether both samples are of one process."""
    return later.up >= earlier.up and later.number("gateway", "process") == earlier.number("gateway", "process")


def rates(samples: Samples, of: Measure) -> list[float | None]:
    """The rates between each two neighbours."""
    return [rate(earlier, later, of) for earlier, later in pairwise(samples)]


def points(view: View, of: Measure) -> list[tuple[float, float] | None]:
    """The same rates of a view, each with its place in the time that samples are kept, from 0 to 1."""
    return [
        None if later is None or each is None else (1 - (view.at - later.at) / SPAN, each)
        for later, each in zip(view.samples[1:], rates(view.samples, of))
    ]


def recent_rate(samples: Samples, of: Measure) -> float | None:
    """The rate over the last intervals that are of one gateway."""
    if not samples:
        return None
    found = (rate(earlier, samples[-1], of) for earlier in samples[-1 - RECENT : -1])
    return next((each for each in found if each is not None), None)


def grown(samples: Samples, of: Measure) -> Number:
    """How much a number has grown over all samples."""
    pairs = ((one, other) for one, other in pairwise(samples) if one is not None and other is not None)
    return sum(of(other) - of(one) for one, other in pairs if is_same_gateway(one, other))


def oldest_session(samples: Samples) -> tuple[int, float] | None:
    """A count of open sessions, and the seconds for which so many have been open at least. Of the open ones at most so
    many are younger than a sample as were begun after it. None if no sample shows any to be older."""
    last = samples[-1] if samples else None
    if last is None:
        return None
    for sample in samples:
        if sample is not None and is_same_gateway(sample, last):
            younger = last.number("requests", "Begin") - sample.number("requests", "Begin")
            older = int(last.number("open", "sessions") - younger)
            if older > 0 and last.at > sample.at:
                return older, last.at - sample.at
    return None
