# SPDX-License-Identifier: Apache-2.0
"""What is known of the cluster, and of that what wsched is told: nodes, pods, whose turn it is."""
