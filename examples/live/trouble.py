"""Losses, delays and doubles of frames, for trials."""
import random
from dataclasses import dataclass, field


@dataclass
class Trouble:
    """What befalls the frames of one realm. Of those that it sends each is lost with probability `lose`, comes behind the
    next one with probability `late`, and twice with probability `twice`. Of those that it is to get each is lost with
    probability `lose`."""

    lose: float
    late: float
    twice: float
    random: random.Random
    _held: list[bytes] = field(default_factory=list)

    def sent(self, frames: list[bytes]) -> list[bytes]:
        """What comes of frames that the realm sent. What is late waits for a frame behind which it comes."""
        come: list[bytes] = []
        draw = self.random.random
        for frame in frames:
            if draw() < self.lose:
                continue
            if not self._held and draw() < self.late:
                self._held.append(frame)
                continue
            come += [frame] * (2 if draw() < self.twice else 1) + self._held
            self._held.clear()
        return come

    def given(self, frames: list[memoryview]) -> list[memoryview]:
        """What comes of frames that the realm is to get."""
        return [frame for frame in frames if self.random.random() >= self.lose]
