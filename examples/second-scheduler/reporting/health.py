# SPDX-License-Identifier: Apache-2.0
"""Whether this process does what it is for: the beat of its main loop, and what it is just now."""
from __future__ import annotations

import logging
import os
import threading
import time
from typing import Callable

LOG = logging.getLogger("second-scheduler")
# For how long the main loop may do nothing, in seconds.
SILENCE = 15.0


class Health:
    """The main loop beats whenever it gets on. A leader without a beat does nothing, and nobody else may: so it ends, its Lease runs
    out, and another replica takes over."""

    def __init__(self) -> None:
        self.is_leader = self.is_listed = False
        self.beaten = time.monotonic()
        # which kinds of object a leader isn't heard of
        self.unheard: Callable[[], list[str]] = list

    def beat(self) -> None:
        self.beaten = time.monotonic()

    def is_live(self) -> bool:
        return not self.is_leader or time.monotonic() - self.beaten < SILENCE

    def is_ready(self) -> bool:
        return self.is_live() and (not self.is_leader or (self.is_listed and not self.unheard()))

    def why_not_ready(self) -> str:
        if not self.is_live():
            return "the main loop does nothing"
        return f"nothing is heard of any {', of any '.join(self.unheard())}" if self.is_listed and self.unheard() else "not listed yet"

    def lead(self) -> None:
        self.beat()
        self.is_leader = True

    def watch_over(self, kill: Callable[[], None]) -> None:
        """Ends the process, and what it has started, once there is no beat any more."""

        def go() -> None:
            while self.is_live():
                time.sleep(0.5)
            LOG.error("the main loop has done nothing for %.0f s", SILENCE)
            kill()
            os._exit(1)

        threading.Thread(target=go, daemon=True, name="health").start()
