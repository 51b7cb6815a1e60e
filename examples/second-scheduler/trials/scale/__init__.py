# SPDX-License-Identifier: Apache-2.0
"""Trials of many pods and nodes, and of several instances; and what is bound a second."""
