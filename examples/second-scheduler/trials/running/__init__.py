# SPDX-License-Identifier: Apache-2.0
"""Trials of how it starts and ends, and of its children."""
