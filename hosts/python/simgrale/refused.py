"""What the library refuses, as an exception."""

from __future__ import annotations

from typing import Optional


class Refused(Exception):
    """A call that was refused: it has changed nothing.

    number: the question that was answered no (docs/REFUSALS.md). words: the number in words, with its place where there is one.
    index: of many poses the place of the first refused one in the arrays, after broadcasting; else None.
    """

    def __init__(self, number: int, words: str, index: Optional[tuple[int, ...]] = None) -> None:
        super().__init__(number, words, index)
        self.number = number
        self.words = words
        self.index = index

    def __str__(self) -> str:
        place = "" if self.index is None else f", pose {self.index[0] if len(self.index) == 1 else self.index}"
        return f"refused with {self.number}{place}: {self.words}"
