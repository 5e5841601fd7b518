"""The old versions of a store of its own, which it collects by itself: some cells behind a commit."""

from __future__ import annotations

from collections.abc import Callable, Sequence
from typing import Any

from duqishom.answers import Committed
from duqishom.connection import RequestTimedOut
from duqishom.plans import FEW_VISITS, Plan, StorePlans, Trip
from duqishom.program import ProgramEnded
from duqishom.refusals import Refused
from duqishom.several import CommitDone

# The commits after which a store of its own collects for the first time.
COMMITS = 10_000


class OwnCollection:
    """Once so many commits were made since the last collection, or as many as that one had visits, if they were more, a trip
    of the next one follows each commit until it has ended. So there is no more than a visit for each commit, on the whole. A
    collection that fails is given up, and nobody is told: the next one is due after as many commits."""

    def __init__(self, after: int, plans: StorePlans) -> None:
        """After 0 commits there is none."""
        self._after = self._due = after
        self._plans = plans
        self._commits = 0
        self._visits = 0
        self._plan: Plan[int] | None = None
        self._trip: Trip | None = None
        self._is_at_work = False

    def note(self, answers: Sequence[Any]) -> bool:
        """Counts the commits among these answers, and tells whether a trip is to follow."""
        commits = sum(isinstance(answer, Committed | CommitDone) for answer in answers)
        self._commits += commits
        is_due = self._plan is not None or self._commits >= self._due
        return commits > 0 and self._after > 0 and is_due and not self._is_at_work

    def go_on(self, take: Callable[[Trip], list[Any]]) -> None:
        """Makes one trip."""
        self._is_at_work = True
        try:
            if self._plan is None or self._trip is None:
                # The first trip only opens a collector
                self._commits, self._visits = 0, -FEW_VISITS
                self._plan = self._plans.collect(FEW_VISITS)
                self._trip = next(self._plan)
            self._trip = self._plan.send(take(self._trip))
            self._visits += FEW_VISITS
        except StopIteration:
            self._plan, self._due = None, max(self._after, self._visits)
        except (Refused, ProgramEnded, RequestTimedOut):
            self._plan = None
        finally:
            self._is_at_work = False
