"""A pointer of the library that is closed once, and never while a thread uses it."""

from __future__ import annotations

import threading
from collections.abc import Iterator
from contextlib import contextmanager
from typing import Any

from .library import NO_HANDLE, function, words
from .refused import Refused


class Handle:
    """Lends the pointer to calls. Closed while some are under way, it goes when the last of them ends; later calls are refused with 261."""

    def __init__(self, pointer: int, close: str) -> None:
        self._pointer = pointer
        self._close: Any = function(close)
        self._lock = threading.Lock()
        self._users = 0
        self._closed = False

    @contextmanager
    def lent(self) -> Iterator[int]:
        with self._lock:
            if self._closed:
                raise Refused(NO_HANDLE, words(NO_HANDLE))
            self._users += 1
        try:
            yield self._pointer
        finally:
            with self._lock:
                self._users -= 1
                last = self._closed and self._users == 0
            if last:
                self._close(self._pointer)

    @property
    def closed(self) -> bool:
        return self._closed

    def close(self) -> None:
        with self._lock:
            last = not self._closed and self._users == 0
            self._closed = True
        if last:
            self._close(self._pointer)

    def __del__(self) -> None:
        self.close()
