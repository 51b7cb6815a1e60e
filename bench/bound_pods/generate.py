#!/usr/bin/env python3
# SPDX-License-Identifier: Apache-2.0
"""Writes a script: NODES nodes, PODS bound pods spread over them, and one dump."""
import sys


def main():
    nodes, pods = int(sys.argv[1]), int(sys.argv[2])
    out = sys.stdout
    for n in range(nodes):
        out.write('{"op":"node","v":%d,"name":"node-%04d","cpu":"64","mem":"256Gi","pods":250}\n' % (n + 1, n))
    for p in range(pods):
        out.write(
            '{"op":"bound","v":%d,"uid":"pod-%06d","node":"node-%04d","cpu":"100m","mem":"64Mi"}\n'
            % (nodes + p + 1, p, p * 7919 % nodes)
        )
    out.write('{"op":"dump"}\n')


main()
