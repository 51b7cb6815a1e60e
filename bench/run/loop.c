// SPDX-License-Identifier: Apache-2.0
// A filter that asks for the node, so that it is called for each of them, and passes it after a
// loop that costs 10,000 fuel.
#include "sched.h"

FILTER
{
    u32 sum = node_pods(read_node()), left = 434;
#pragma clang loop unroll(disable)
    do
        sum = sum * 1664525u + left;
    while (--left);
    return sum == 1 ? UNSCHEDULABLE : PASS;
}
