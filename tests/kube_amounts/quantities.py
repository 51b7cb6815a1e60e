# SPDX-License-Identifier: Apache-2.0
"""Texts of quantities: of the whole grammar of the Kubernetes API reference's "Quantity", and near it; and what can be said of one at a glance."""
from __future__ import annotations

import random
import re
from fractions import Fraction
from typing import Callable

# The most that a script's line can say: thousandths of a core, bytes and pods; and how many decimal
# places these are counted in.
MOST = {"cpu": 2**30, "memory": 2**44, "pods": 150_000}
PLACES = {"cpu": 3, "memory": 0, "pods": 0}
TENS = {"n": -9, "u": -6, "m": -3, "": 0, "k": 3, "M": 6, "G": 9, "T": 12, "P": 15, "E": 18}
TWOS = {f"{it}i": 10 * k for k, it in enumerate("KMGTPE", 1)}
GRAMMAR = re.compile(r"([+-]?)([0-9]*)(?:\.([0-9]*))?(?:([numkMGTPE]|)|([KMGTPE]i)|[eE]([+-]?[0-9]+))", re.ASCII)
MANY = re.compile("[eE][+-]?[0-9]{5}")
# What a text is in which wsched is to differ from Kubernetes, and what it names then.
NO_DIGIT, BLANK, FAR, BELOW, ABOVE = "no digit", "a blank beside it", "an exponent of more than two digits", "an amount below 0", "an amount above its limit"
# What a wrong text has, and some that are none.
LETTERS = "0123456789+-.eEinumkKMGTPxX,_ :/ü\\\"\t"
WRONG = ["", " ", "1K", "1ki", "1mi", "1Kib", "1KiB", "1g", "1kk", "1mm", "1e", "1E+", "1e-", "1e+-5", "1e1.5", "1Ee5", "1e5m", "1eKi", "1iK", "1i"]
WRONG += ["--1", "+-1", "1-", "1+", "1-5", "1.2.3", "1..2", "0x10", "1_000", "1,5", "１", "٣", "NaN", "inf", "Infinity", "null", "true", "1/2", "½"]
WRONG += ["1\\n", "1 Ki", "1 e5", "1u0"]


def glance(text: str, what: str, is_up: bool) -> tuple[str | None, bool]:
    """Why this differs by its name, or None; and whether it is a whole number of thousandths of a core, of bytes or of pods."""
    found = GRAMMAR.fullmatch(text.strip(" "))
    if not text.strip(" ") or not found:
        return None, True
    if text != text.strip(" "):
        return BLANK, True
    sign, whole, part, ten, two, exponent = found.groups(default="")
    if not whole + part:
        return NO_DIGIT, True
    if not int(whole + part):
        # (nothing is nothing, by any exponent)
        return None, True
    if len(exponent.lstrip("+-").lstrip("0")) > 2:
        return FAR, True
    power = int(exponent) if exponent else TENS.get(ten, 0)
    value = int(whole + part) * Fraction(10) ** (PLACES[what] + power - len(part)) * 2 ** TWOS.get(two, 0)
    size = -(-value // 1) if is_up else value // 1
    named = BELOW if sign == "-" else ABOVE if size > MOST[what] else None
    return named, value.denominator == 1


class Dice:
    """Throws texts: the same of the same seed."""

    def __init__(self, seed: int) -> None:
        self.random = random.Random(seed)
        self.kinds: list[Callable[[], str]] = [self.amount, self.edge, self.long, self.free, self.wrong, self.far, self.bare]

    def any(self) -> str:
        """A text of any kind, but none with an exponent of so many digits that Kubernetes itself would take minutes and more for it."""
        text = self.random.choices(self.kinds, [62, 12, 8, 8, 8, 1, 1])[0]()
        return self.any() if MANY.search(text) else text

    def chance(self, of: float) -> bool:
        return self.random.random() < of

    def digits(self, longest: int) -> str:
        """Some digits, or none; seldom many."""
        return "".join(self.random.choices("0123456789", k=self.random.randint(0, self.random.randint(1, longest))))

    def exponent(self, power: int) -> str:
        """With a sign or none, and sometimes a zero in front."""
        sign = "-" if power < 0 else self.random.choice(["", "", "+"])
        return self.random.choice("eE") + sign + (f"{abs(power):02}" if self.chance(0.2) else f"{abs(power)}")

    # Amounts of a size, spelled in any way.

    def spelled(self, number: int, places: int) -> str:
        """So many digits of it behind the point, by a suffix or an exponent; with signs, zeros and a point that say nothing."""
        suffix = self.random.choice([*TENS, *TWOS, "", "", "m", "Mi", "Gi", "e", "e", "e", "e"])
        power = self.random.choice([self.random.randint(-99, 99), self.random.randint(-20, 20)]) if suffix == "e" else TENS.get(suffix, 0)
        number, places = number * 5 ** TWOS.get(suffix, 0), places + TWOS.get(suffix, 0) + power
        text = str(number * 10 ** max(0, -places)).rjust(max(0, places) + 1, "0")
        whole, part = text[: len(text) - max(0, places)], text[len(text) - max(0, places) :]
        if self.chance(0.9):
            part = part.rstrip("0")
        if whole == "0" and part and self.chance(0.4):
            whole = ""
        sign = self.random.choices(["", "+", "-"], [90, 8, 2])[0]
        zeros = "0" * self.random.choice([0, 0, 0, 0, 0, 1, 3, 20]) if whole else ""
        point = "." if part or self.chance(0.05) else ""
        return sign + zeros + whole + point + part + (self.exponent(power) if suffix == "e" else suffix)

    def amount(self, what: str | None = None, share: float = 1.05) -> str:
        """Up to a share of the most that a line can say."""
        what = what or self.random.choices([*MOST], [45, 45, 10])[0]
        more = self.random.choice([0, 0, 0, 1, 3, 9, 10, 12])
        size = MOST[what] * share * 10 ** self.random.uniform(-10, 0)
        return self.spelled(int(size * 10**more), PLACES[what] + more)

    def edge(self) -> str:
        """Near a limit or a whole number, or at it: from just above it to just below."""
        what, more = self.random.choice([*MOST]), self.random.randint(0, 20)
        size = self.random.choice([MOST[what], MOST[what], self.random.randint(0, 3), self.random.randint(0, MOST[what])])
        return self.spelled(max(0, size * 10**more + self.random.choice([-1, 0, 1, self.random.randint(-9, 9)])), PLACES[what] + more)

    def long(self) -> str:
        """Of as many digits as 64 bits take, or some more or fewer."""
        number = self.random.choice([2**63, 10**18, 10**19, 2**64, 10 ** self.random.randint(15, 21)]) + self.random.randint(-3, 3)
        return self.spelled(number, self.random.randint(0, 30))

    # Texts of the grammar, of any size, and others.

    def free(self) -> str:
        """Of the grammar's parts; without a digit too."""
        suffix = self.random.choice([*TENS, *TWOS, "e", "e"])
        point = self.random.choice(["", "."])
        number = self.digits(40) + point + (self.digits(40) if point else "")
        return self.random.choice(["", "", "+", "-"]) + number + (self.exponent(self.random.randint(-99, 99)) if suffix == "e" else suffix)

    def wrong(self) -> str:
        """A letter more or less, or another one, than a text of the grammar has; a blank beside it; or no text of it at all."""
        if self.chance(0.1):
            return self.random.choice(WRONG)
        text = self.amount() if self.chance(0.5) else self.free()
        at, letter = self.random.randint(0, len(text)), self.random.choice(LETTERS)
        return text[:at] + self.random.choice(["", letter, letter]) + text[at + self.random.randint(0, 1) :]

    def far(self) -> str:
        """With an exponent of three digits or more."""
        power = f"{self.random.randint(0, 9999):0{self.random.randint(3, 4)}}"
        return self.amount().rstrip("numkKMGTPEi") + self.random.choice("eE") + self.random.choice(["", "+", "-"]) + power

    def bare(self) -> str:
        """Without a digit."""
        return self.random.choice(["", "+", "-"]) + self.random.choice(["", "."]) + self.random.choice([*TENS, *TWOS, "e5", "E-3"])
