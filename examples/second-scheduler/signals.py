# SPDX-License-Identifier: Apache-2.0
"""Signals, each told in a thread of its own.

A signal may come to any thread, and Python's handlers run in the main one alone, and only once that runs: one that waits for a lock isn't
woken by a signal that came to another. So what handles them here is the thread that reads the bytes which the interpreter writes when they come.
"""
from __future__ import annotations

import signal
import socket
import threading
from typing import Callable, Mapping


def hear(means: Mapping[signal.Signals, Callable[[], object]]) -> None:
    """Has each of these signals do what it means, from now on. (It is to be called in the main thread.)"""
    bytes_in, bytes_out = socket.socketpair()
    bytes_out.setblocking(False)
    signal.set_wakeup_fd(bytes_out.fileno(), warn_on_full_buffer=False)
    for it in means:
        signal.signal(it, lambda *_: None)

    def go() -> None:
        # (the other end is closed by nobody as long as this one goes on)
        with bytes_out:
            while True:
                for number in bytes_in.recv(64):
                    if number in means:
                        means[signal.Signals(number)]()

    threading.Thread(target=go, daemon=True, name="signals").start()
