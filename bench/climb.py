"""A climb: parameters are changed a little at random, and changes that cost more are kept."""
import random
import time
from collections.abc import Callable, Mapping, Sequence
from typing import Any, Generic, TypeVar

Parameters = dict[str, Any]
"""Numbers and words, as a case takes them."""

Case = TypeVar("Case")
"""What a choice of parameters makes, and what is measured."""


class Search(Generic[Case]):
    """What is looked through: a case for each choice of parameters, from which it begins, and of each parameter that is
    changed its words, its least and its greatest number, or both."""

    def __init__(
        self,
        label: str,
        limit: int,
        case: Callable[..., Case],
        start: Parameters,
        space: Mapping[str, Sequence[int | str]],
        is_one: Callable[[Parameters], bool] = lambda parameters: True,
    ) -> None:
        self.label, self.limit, self._case, self._space, self._is_one = label, limit, case, space, is_one
        self.best, self.most, self.tries = start, 0.0, 0

    def _changed(self, draw: random.Random) -> Parameters:
        """A neighbour of the best so far."""
        while True:
            found = dict(self.best)
            for name in draw.sample(sorted(self._space), draw.choice((1, 1, 2, 3))):
                found[name] = self._drawn(draw, self._space[name], found[name])
            if found != self.best and self._is_one(found):
                return found

    @staticmethod
    def _drawn(draw: random.Random, space: Sequence[int | str], value: int | str) -> int | str:
        """Another value of a parameter: one of its words, or a number near the one that it has."""
        words, numbers = [one for one in space if isinstance(one, str)], [one for one in space if not isinstance(one, str)]
        if words and (not numbers or draw.random() < 0.3):
            return draw.choice(words)
        least, most = numbers
        if isinstance(value, str):
            return draw.randint(least, most)
        near = value + draw.choice((-8, -4, -2, -1, 1, 2, 4, 8)) if draw.random() < 0.6 else int(value * draw.choice((0.5, 0.7, 0.9, 1.1, 1.4, 2)))
        return max(least, min(most, near))

    def step(self, draw: random.Random, measure: Callable[[Callable[[], Case]], float]) -> bool:
        """Tries one more choice, the first time that with which it begins."""
        found = self._changed(draw) if self.tries else self.best
        self.tries += 1
        taken = measure(lambda: self._case(**found))
        if taken > self.most:
            self.most, self.best = taken, found
            return True
        return False


def climb(searches: list[Search[Case]], seconds: float, seed: int, measure: Callable[[Callable[[], Case]], float]) -> list[Search[Case]]:
    """Goes on for so many seconds, by turns, and tells each step that leads up. Answers the searches that found more than one and a half times their limit."""
    draw, end = random.Random(seed), time.monotonic() + seconds
    while time.monotonic() < end or not all(search.tries for search in searches):
        for search in searches:
            if search.step(draw, measure):
                print(
                    f"{search.label}, try {search.tries}: {search.most:,.0f}, {search.most / search.limit:.2f} times the limit: {search.best}",
                    flush=True,
                )
    print("\n| Search | Tries | Most | Limit | With |\n|---|---|---|---|---|")
    for search in searches:
        print(f"| {search.label} | {search.tries} | {search.most:,.0f} | {search.limit:,} | {search.best} |")
    return [search for search in searches if 2 * search.most > 3 * search.limit]
