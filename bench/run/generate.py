#!/usr/bin/env python3
# SPDX-License-Identifier: Apache-2.0
"""Writes a script: NODES nodes with ten labels each, PLACED bound pods spread over them, PENDING pods that wait, and CYCLES cycles.

    generate.py NODES PLACED PENDING CYCLES
"""
import sys


def nodes(count):
    """Nodes that take every pod, each with ten labels."""
    for n in range(count):
        labels = [
            ["beta.kubernetes.io/arch", "amd64"],
            ["beta.kubernetes.io/instance-type", "m5.large"],
            ["disk", "ssd"],
            ["failure-domain.beta.kubernetes.io/region", "eu-west-1"],
            ["failure-domain.beta.kubernetes.io/zone", "eu-west-1b"],
            ["kubernetes.io/arch", "amd64"],
            ["kubernetes.io/hostname", "node-%04d" % n],
            ["kubernetes.io/os", "linux"],
            ["topology.kubernetes.io/region", "eu-west-1"],
            ["topology.kubernetes.io/zone", "eu-west-1b"],
        ]
        told = ",".join('["%s","%s"]' % (key, value) for key, value in labels)
        yield '{"op":"node","v":%d,"name":"node-%04d","cpu":"64","mem":"256Gi","pods":250,"labels":[%s]}' % (n + 1, n, told)


def placed(first, count, among):
    """Bound pods, whose events have versions from this one on."""
    for p in range(count):
        yield '{"op":"bound","v":%d,"uid":"placed-%06d","node":"node-%04d","cpu":"100m","mem":"64Mi"}' % (
            first + p,
            p,
            p * 7919 % among,
        )


def pending(first, count):
    """Pods that wait, likewise, of ten priorities."""
    for p in range(count):
        yield '{"op":"pod","v":%d,"uid":"pod-%06d","priority":%d,"containers":[["100m","64Mi"]]}' % (first + p, p, p * 7 % 10)


def cycles(count):
    for _ in range(count):
        yield '{"op":"cycle"}'


def script(nodes_in, placed_in, pending_in, cycles_in):
    """All lines of a script."""
    yield from nodes(nodes_in)
    yield from placed(nodes_in + 1, placed_in, nodes_in)
    yield from pending(nodes_in + placed_in + 1, pending_in)
    yield from cycles(cycles_in)


if __name__ == "__main__":
    for line in script(*map(int, sys.argv[1:])):
        print(line)
