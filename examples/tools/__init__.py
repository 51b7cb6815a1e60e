# SPDX-License-Identifier: Apache-2.0
"""What the programs of this folder share: how the program is run, which rules are asked, and how a cluster is read and told."""
import pathlib
import sys

# (what kubectl tells is read by the second scheduler's own modules, so that both tell it alike)
sys.path.append(str(pathlib.Path(__file__).resolve().parent.parent / "second-scheduler"))
