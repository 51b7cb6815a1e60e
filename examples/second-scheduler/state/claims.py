# SPDX-License-Identifier: Apache-2.0
"""The claims of pods, and the volumes that they are bound to, as far as these say where a pod may be."""
from __future__ import annotations

import threading
from typing import Callable, Sequence

from api.pages import Json
from api.watch import Things
from reporting.metrics import Metrics
from state.affinity import PLACES, Volumes, claim_of

Claim = tuple[str, str]


def claims_of(pod: Json) -> set[Claim]:
    names = (claim_of(pod, it) for it in pod["spec"].get("volumes") or [])
    return {(pod["metadata"]["namespace"], it) for it in names if it}


class Claims:
    """What is there, and the pods that wait for a node and have claims: each is heard anew (`again`) when what its claims say changes.
    Whoever hears of pods, claims or volumes holds the lock meanwhile, so that nothing old is heard behind something new."""

    def __init__(self, is_told: bool) -> None:
        self.claims: dict[Claim, Json] = {}
        self.volumes: dict[str, Json] = {}
        # None where no rule is asked about them, and nobody hears of them
        self.there = Volumes(self.claims, self.volumes) if is_told else None
        self.pods: dict[str, tuple[Json, set[Claim]]] = {}
        self.lock = threading.RLock()
        self.again: Callable[[Sequence[Json]], None] = lambda pods: None
        self.unlisted = {"claim": threading.Event(), "volume": threading.Event()}

    def wait(self) -> None:
        """Before pods are listed: with half of the claims unheard, many would be said to have none."""
        for it in self.unlisted.values() if self.there else ():
            it.wait()

    def keep(self, pod: Json, waits: bool) -> None:
        claims = claims_of(pod) if waits and self.there else set()
        if claims:
            self.pods[pod["metadata"]["uid"]] = pod, claims
        else:
            self.pods.pop(pod["metadata"]["uid"], None)

    def listed(self, uids: set[str]) -> None:
        for uid in [it for it in self.pods if it not in uids]:
            del self.pods[uid]

    def changed(self, claims: set[Claim]) -> None:
        if pods := [pod for pod, own in self.pods.values() if own & claims]:
            self.again(pods)


class ClaimHearing(Things):
    """Claims, by their namespaces and names."""

    kind = "claim"

    def __init__(self, claims: Claims, metrics: Metrics) -> None:
        super().__init__()
        self.all, self.metrics = claims, metrics

    def key(self, thing: Json) -> str:
        return f"{thing['metadata']['namespace']}/{thing['metadata']['name']}"

    def hear(self, event: str, things: Sequence[Json]) -> None:
        for it in things:
            self.hear_one(event, it)

    def hear_one(self, event: str, thing: Json) -> None:
        meta, spec = thing["metadata"], thing["spec"]
        key = (meta["namespace"], meta["name"])
        kept = None
        if event != "DELETED":
            some = {it: meta[it] for it in ("annotations", "ownerReferences", "deletionTimestamp") if it in meta}
            kept = {"metadata": some, "spec": {it: spec[it] for it in ("accessModes", "volumeName") if it in spec}}
        with self.all.lock:
            self.put(key, kept)

    def put(self, key: Claim, kept: Json | None) -> None:
        if self.all.claims.get(key) == kept:
            return
        if kept:
            self.all.claims[key] = kept
        else:
            del self.all.claims[key]
        self.all.changed({key})

    def listed(self, keys: set[str]) -> None:
        with self.all.lock:
            for key in [it for it in self.all.claims if "/".join(it) not in keys]:
                self.put(key, None)
        self.metrics.lists.labels(self.kind).inc()
        self.all.unlisted[self.kind].set()

    def failed(self) -> None:
        self.metrics.breaks.labels(self.kind).inc()


class VolumeHearing(Things):
    """Volumes, by their names."""

    kind = "volume"

    def __init__(self, claims: Claims, metrics: Metrics) -> None:
        super().__init__()
        self.all, self.metrics = claims, metrics

    def key(self, thing: Json) -> str:
        return str(thing["metadata"]["name"])

    def hear(self, event: str, things: Sequence[Json]) -> None:
        for it in things:
            self.hear_one(event, it)

    def hear_one(self, event: str, thing: Json) -> None:
        labels = thing["metadata"].get("labels") or {}
        kept = None
        if event != "DELETED":
            kept = {"metadata": {"labels": {it: labels[it] for it in PLACES if it in labels}}, "spec": {"nodeAffinity": thing["spec"].get("nodeAffinity")}}
        with self.all.lock:
            self.put(self.key(thing), kept)

    def put(self, name: str, kept: Json | None) -> None:
        if self.all.volumes.get(name) == kept:
            return
        if kept:
            self.all.volumes[name] = kept
        else:
            del self.all.volumes[name]
        self.all.changed({key for key, claim in self.all.claims.items() if claim["spec"].get("volumeName") == name})

    def listed(self, keys: set[str]) -> None:
        with self.all.lock:
            for name in [it for it in self.all.volumes if it not in keys]:
                self.put(name, None)
        self.metrics.lists.labels(self.kind).inc()
        self.all.unlisted[self.kind].set()

    def failed(self) -> None:
        self.metrics.breaks.labels(self.kind).inc()
