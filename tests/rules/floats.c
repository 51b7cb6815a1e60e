// SPDX-License-Identifier: Apache-2.0
// It is refused: wsched has no floats.
#include "sched.h"

static __attribute__((noinline)) int is_half_full(u32 used, u32 all)
{
    return (float)used / (float)all > 0.5f;
}

FILTER
{
    const struct node *node = read_node();
    return is_half_full(node_used_pods(node), node_pods(node)) ? UNSCHEDULABLE : PASS;
}
