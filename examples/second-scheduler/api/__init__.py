# SPDX-License-Identifier: Apache-2.0
"""What speaks with the API server: lists and watches, binds and other requests, and the Lease."""
