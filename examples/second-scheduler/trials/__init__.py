# SPDX-License-Identifier: Apache-2.0
"""The trials of the second scheduler: `try` beside this folder runs them."""
