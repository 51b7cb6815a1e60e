# SPDX-License-Identifier: Apache-2.0
"""Trials of what counts on a node: amounts, the audit, the ledger, and decisions that knew too little."""
