# SPDX-License-Identifier: Apache-2.0
"""Trials of what the API server answers, late or never: watches, binds, the Lease, certificates."""
