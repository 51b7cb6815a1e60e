# SPDX-License-Identifier: Apache-2.0
"""Trials of what goes wrong all at once, and for hours."""
