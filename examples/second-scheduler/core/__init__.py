# SPDX-License-Identifier: Apache-2.0
"""The program's children: what is said to `wsched run`, `live`, `translate` and `explain`, and what is read from them."""
