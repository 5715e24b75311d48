"""The past: the state that each moment left, kept whole."""

from bisect import bisect_right
from typing import Dict, List, Optional, Tuple

from kinds import Thing
from state import State

Interval = Tuple[int, Optional[int]]  # from a moment up to before another, or open


class Past:
    """The states of a registry, one for each moment at which something happened."""

    def __init__(self, first: State) -> None:
        self.states: List[State] = [first]

    def keep(self, state: State) -> None:
        """What stands at a moment is what stands after all that happened at it."""
        if self.states[-1].moment == state.moment:
            self.states.pop()
        self.states.append(state)

    def at(self, moment: int) -> State:
        """The state of a past moment: the last one that was left at it or before it."""
        return self.states[bisect_right([state.moment for state in self.states], moment) - 1]

    def intervals(self, group: Thing) -> Dict[Thing, List[Interval]]:
        """For each person the half-open intervals of being in the group.

        None is empty and no two touch: whoever left and came back at one moment has never left.
        """
        found: Dict[Thing, List[Interval]] = {}
        for state in self.states:
            now = state.members.get(group, frozenset())
            for person in now:
                intervals = found.setdefault(person, [])
                if not intervals or intervals[-1][1] is not None:
                    intervals.append((state.moment, None))
            for person, intervals in found.items():
                begin, end = intervals[-1]
                if end is None and person not in now:
                    intervals[-1] = (begin, state.moment)
        return found
