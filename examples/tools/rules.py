# SPDX-License-Identifier: Apache-2.0
"""Which rules are asked, and by which settings: words as `wsched run` takes them, NAME:WEIGHT:FUEL:FILE, or one file for all that ask.

    node_affinity: 2                 # tell selectors, node affinity and volumes' zones, and ask the rule node_affinity with this weight
    settings: {few_pods.limit: 3}    # the site's settings, at most 8
    labels: [tier, zone]             # labels that rules read whose modules don't name them: none of these gives way in a row
    rules:                           # in the order in which they are asked
    - file: few_pods.wasm            # beside this file
    - {name: spread, file: /srv/rules/least_pods.wasm, weight: 10, fuel: 1000}

Each part may be absent. A rule's name is that of its file without .wasm where none is given, its weight 1 and its fuel 100000. Such a
file is YAML, or JSON, and is read with python3-yaml.
"""
from __future__ import annotations

import argparse
import pathlib
import re
from typing import Any, Iterator, NamedTuple, Sequence

import site_settings
from state import rule_labels

AFFINITY, AFFINITY_FUEL = "node_affinity", 500000
SHIPPED = pathlib.Path(__file__).resolve().parent.parent / "plugins"
NAME = re.compile(r"[A-Za-z0-9._/-]{1,63}")
MOST_RULES, MOST_WEIGHT, MOST_FUEL = 16, 10, 10**9
WEIGHT, FUEL = 1, 100000
PARTS, OF_RULE = ("node_affinity", "settings", "labels", "rules"), ("name", "file", "weight", "fuel")


class BadRules(Exception):
    """A file of rules that can't be followed: where, and what belongs there."""


class Rule(NamedTuple):
    """One rule, as a file of rules has it."""

    name: str
    weight: int
    fuel: int
    file: str

    @property
    def spec(self) -> str:
        return f"{self.name}:{self.weight}:{self.fuel}:{self.file}"


class Rules(NamedTuple):
    """The words that the program is given, the settings as labels of each node's row, and the labels that rules read beside those that their
    modules name; None where no file says any."""

    specs: tuple[str, ...] = ()
    settings: tuple[tuple[str, str], ...] | None = None
    keys: tuple[str, ...] | None = None

    @property
    def tells_affinity(self) -> bool:
        """Whether pods' selectors, node affinity and volumes are told: a rule of this name is asked about them."""
        return any(it.startswith(f"{AFFINITY}:") for it in self.specs)

    @property
    def named(self) -> rule_labels.Named:
        """The labels that rules read, and the rules that don't say which."""
        return rule_labels.read_by(self.specs, self.keys, AFFINITY if self.tells_affinity else "")

    @property
    def labels(self) -> tuple[tuple[str, str], ...]:
        return self.settings or ()


def add_words(said: argparse.ArgumentParser) -> None:
    """The words by which a program is told its rules."""
    said.add_argument("--rules", metavar="FILE")
    said.add_argument("--settings", metavar="FILE")
    said.add_argument("--labels", type=rule_labels.words, metavar="KEY,..")
    said.add_argument("spec", nargs="*")


def given_by(given: argparse.Namespace) -> Rules:
    """What these words come to."""
    found = taken(given.rules, given.spec)
    if given.labels is not None:
        found = found._replace(keys=tuple(given.labels))
    if not given.settings:
        return found
    if found.settings is not None:
        raise BadRules(f"{given.rules} has settings, so --settings can't give others")
    return found._replace(settings=tuple(site_settings.read(given.settings)))


def taken(file: str | None, specs: Sequence[str]) -> Rules:
    """A file's rules, if there is one, and behind them those of the words."""
    if not file:
        return Rules(tuple(specs))
    found = read(file)
    return Rules((*(it.spec for it in found.rules), *specs), found.settings, found.keys)


class Read(NamedTuple):
    """A file's rules in their order, its settings as labels, and the labels that it names; None where it has none."""

    rules: list[Rule]
    settings: tuple[tuple[str, str], ...] | None
    keys: tuple[str, ...] | None


def read(file: str) -> Read:
    said = loaded(file)
    if not isinstance(said, dict):
        raise BadRules(f"{file}: it is no mapping of {', '.join(PARTS)}")
    no_others(file, said, PARTS)
    given = said.get("rules") or []
    if not isinstance(given, list):
        raise BadRules(f"{file}: rules: this is no list")
    rules = [rule_of(f"{file}: rule {k}", it, pathlib.Path(file).parent) for k, it in enumerate(given, 1)]
    if said.get("node_affinity") is not None:
        weight = whole(f"{file}: node_affinity", said["node_affinity"], MOST_WEIGHT)
        rules.insert(0, Rule(AFFINITY, weight, AFFINITY_FUEL, str(SHIPPED / f"{AFFINITY}.wasm")))
    names = [it.name for it in rules]
    for name in names:
        if names.count(name) > 1:
            raise BadRules(f"{file}: two rules are called {name}: give one another `name`")
    if len(rules) > MOST_RULES:
        raise BadRules(f"{file}: {len(rules)} rules, and there is room for {MOST_RULES}")
    settings = None if said.get("settings") is None else settings_of(f"{file}: settings", said["settings"])
    return Read(rules, settings, None if said.get("labels") is None else keys_of(f"{file}: labels", said["labels"]))


def keys_of(where: str, said: Any) -> tuple[str, ...]:
    if not isinstance(said, list):
        raise BadRules(f"{where}: this is no list of labels' keys")
    for it in said:
        if not isinstance(it, str) or not rule_labels.KEY.fullmatch(it):
            raise BadRules(f"{where}: {it!r} is no label's key of 1 to 63 letters, digits, -, ., _ and /")
    return tuple(said)


def loaded(file: str) -> Any:
    import yaml  # pylint: disable=import-outside-toplevel

    # (so that it is checked alike where mypy knows the types of yaml and where it doesn't)
    loader: Any = yaml.SafeLoader

    class Once(loader):  # type: ignore[misc]  # pylint: disable=too-many-ancestors
        """Reads no mapping that has a key twice."""

        def construct_mapping(self, node: Any, deep: bool = False) -> Any:
            before: list[Any] = []
            for key, _ in node.value:
                if key.value in before:
                    raise BadRules(f"{file}: line {key.start_mark.line + 1}: {key.value} stands there twice")
                before.append(key.value)
            return super().construct_mapping(node, deep)

    try:
        with open(file, encoding="utf-8") as it:
            return yaml.load(it, Once) or {}
    except OSError as why:
        raise BadRules(f"{file}: {why.strerror}") from why
    except (yaml.YAMLError, ValueError) as why:
        raise BadRules(f"{file}: this is no YAML: {' '.join(str(why).split())}") from why


def rule_of(where: str, said: Any, folder: pathlib.Path) -> Rule:
    if not isinstance(said, dict):
        raise BadRules(f"{where}: it is no mapping of {', '.join(OF_RULE)}")
    no_others(where, said, OF_RULE)
    file = said.get("file")
    if not isinstance(file, str) or not file:
        raise BadRules(f"{where}: file is missing: the rule's module")
    module = folder / file
    name = said.get("name", module.name.removesuffix(".wasm"))
    if not isinstance(name, str) or not NAME.fullmatch(name):
        raise BadRules(f"{where}: name is {name!r}: 1 to 63 letters, digits, -, ., _ and /")
    where = f"{where} ({name})"
    try:
        with open(module, "rb"):
            pass
    except OSError as why:
        raise BadRules(f"{where}: file {module}: {why.strerror}") from why
    weight, fuel = whole(f"{where}: weight", said.get("weight", WEIGHT), MOST_WEIGHT), whole(f"{where}: fuel", said.get("fuel", FUEL), MOST_FUEL)
    return Rule(name, weight, fuel, str(module))


def no_others(where: str, said: dict[Any, Any], known: Sequence[str]) -> None:
    for key in said:
        if key not in known:
            raise BadRules(f"{where}: {key} stands for nothing: there are {', '.join(known)}")


def whole(where: str, said: Any, most: int) -> int:
    if isinstance(said, bool) or not isinstance(said, int) or not 1 <= said <= most:
        raise BadRules(f"{where} is {said!r}: a whole number from 1 to {most}")
    return said


def settings_of(where: str, said: Any) -> tuple[tuple[str, str], ...]:
    if not isinstance(said, dict):
        raise BadRules(f"{where}: this is no mapping of names to values")
    found = dict(settings_in(where, said))
    if len(found) > site_settings.MOST:
        raise BadRules(f"{where}: {len(found)} of them, and there is room for {site_settings.MOST}")
    return tuple(site_settings.labels(found))


def settings_in(where: str, said: dict[Any, Any]) -> Iterator[tuple[str, str]]:
    for name, value in said.items():
        text = str(value).lower() if isinstance(value, bool) else "" if value is None else str(value)
        if isinstance(value, (list, dict)) or not site_settings.LINE.fullmatch(f"{name}={text}"):
            raise BadRules(f"{where}: {name}={text} is no setting: a name of 1 to 58 and a value of up to 63 letters, digits, -, ., _ and /")
        yield str(name), text
