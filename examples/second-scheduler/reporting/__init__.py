# SPDX-License-Identifier: Apache-2.0
"""What operators see: events and conditions, metrics, health, the record."""
