# SPDX-License-Identifier: Apache-2.0
"""A reader and an evaluator of plugins, written from docs/WEBASSEMBLY.md and docs/FORMATS.md alone, beside the proved program.

`module` reads a module's sections, `opcodes` has a row for each instruction, `numeric` the integer operations, `machine` runs a call with
exact fuel. `debug` reads names, source lines and variables where a module has them, `records` writes what a plugin is told of a pod and a
node, and `decisions` follows a script as the program answers it.
"""
