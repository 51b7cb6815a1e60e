// SPDX-License-Identifier: Apache-2.0
// At most two pods on a node, by a rule whose local table has 12,280 bytes, where the stack has
// 4,096: it would lie where the node's record is, and the node would look empty.
#include "sched.h"

FILTER
{
    const struct node *node = read_node();
    volatile u8 seen[12280];
    for (u32 i = 0; i < sizeof seen; i++) seen[i] = 0;
    return node_used_pods(node) < 2 && !seen[9] ? PASS : UNSCHEDULABLE;
}
