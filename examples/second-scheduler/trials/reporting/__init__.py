# SPDX-License-Identifier: Apache-2.0
"""Trials of what operators see: events and conditions, metrics, the record."""
