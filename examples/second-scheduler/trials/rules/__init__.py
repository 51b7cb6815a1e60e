# SPDX-License-Identifier: Apache-2.0
"""Trials of rules, of the labels that they read, and of the programs that ask about them."""
