"""Buckets in which nothing guards what comes in: the gateway's log says so, once of each."""

from __future__ import annotations

import math
import threading
import time
from collections.abc import Iterable

from vaultdesk.output import say

AGAIN = 60  # seconds after which it is looked again at what comes into a bucket


class Unguarded:
    """Which buckets were said, as those of which it is said at the start, and when another one is looked at again."""

    def __init__(self, said: Iterable[str] = ()) -> None:
        self.turn = threading.Lock()
        self.later = dict.fromkeys(said, math.inf)

    def is_due(self, bucket: str) -> bool:
        """Whether it is to be looked at what comes into a bucket now; until the next time that is not."""
        now = time.monotonic()
        with self.turn:
            is_due = self.later.get(bucket, now) <= now
            if is_due:
                self.later[bucket] = now + AGAIN
        return is_due

    def say(self, bucket: str, version: int) -> None:
        """Says of a bucket that nothing guards what came in."""
        with self.turn:
            is_said, self.later[bucket] = self.later.get(bucket) == math.inf, math.inf
        if not is_said:
            why = "it has no lock headers, and the bucket no default retention"
            say(f"vaultdesk s3: bucket {bucket}: nothing guards what comes in, as version {version}: {why}")
