"""The frames of a capture as `try` takes them: by their stamps, up to the last one that is whole."""
import sys
from bisect import bisect_right
from collections import deque
from collections.abc import Iterator
from functools import lru_cache

from rendapil.files import MOMENTS, Damaged, Record
from rendapil.readers import whole_records

WINDOW = 200
"""How many frames are put in order."""


def records(path: str) -> Iterator[Record]:
    """The frames of a capture, by their stamps: where it has several interfaces they may be a little out of order. Where time begins anew, so does this.
    A stamp that is none is that of the frame before. Damaged where no frame is whole."""
    waiting: deque[Record] = deque()
    given = latest = moment = number = 0
    try:
        for record in whole_records(path):
            number += 1
            if not 0 <= record.moment < MOMENTS:
                record = record._replace(moment=moment)
            moment = record.moment
            if moment >= latest:
                latest = moment
                waiting.append(record)
            else:
                if moment < given:
                    yield from waiting
                    waiting.clear()
                    latest = moment
                waiting.insert(bisect_right(waiting, moment, key=lambda one: one.moment), record)
            if len(waiting) > WINDOW:
                first = waiting.popleft()
                given = first.moment
                yield first
    except Damaged:
        if not number:
            raise
        tell_damage(number)
    yield from waiting


@lru_cache
def tell_damage(number: int) -> None:
    """Says once that a capture is damaged."""
    print(f"rendapil try: the capture is damaged behind its frame {number}. Those up to it are taken", file=sys.stderr)
