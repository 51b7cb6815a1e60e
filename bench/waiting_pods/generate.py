#!/usr/bin/env python3
# SPDX-License-Identifier: Apache-2.0
"""Writes a script: PODS pods that wait, each with all fields that a line may have."""
import json
import sys


def pod(number: int) -> dict[str, object]:
    """A pod as a deployment's are: two containers beside one that runs first, five labels and two tolerations."""
    return {
        "op": "pod",
        "v": number + 1,
        "uid": f"pod-{number:06}",
        "priority": number % 7,
        "containers": [["100m", "128Mi"], ["50m", "64Mi"]],
        "init": [["200m", "64Mi"]],
        "labels": [
            ["app", f"app-{number % 50}"],
            ["example.com/team", f"team-{number % 9}"],
            ["pod-template-hash", f"{number * 7919 % 10 ** 10:010}"],
            ["tier", "back"],
            ["version", "v17"],
        ],
        "tolerations": [["node.kubernetes.io/not-ready", "Exists", "", "NoExecute"], ["spot", "Equal", "only", "NoSchedule"]],
    }


def main() -> None:
    for number in range(int(sys.argv[1])):
        print(json.dumps(pod(number), separators=(",", ":")))


main()
