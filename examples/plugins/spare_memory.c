// SPDX-License-Identifier: Apache-2.0
// A filter: each node of the zone edge-1 keeps its last gibibyte of memory for pods of priority
// 1000 and above.
//
//   examples/plugins/build spare_memory.c
#include "sched.h"

READS_LABEL("topology.kubernetes.io/zone")
REASON(2, "nodes of the zone edge-1 keep their last gibibyte of memory for pods of priority 1000 and above")

FILTER
{
    // (what is answered before the node is asked for is asked once for all nodes)
    const struct pod *pod = read_pod3();
    if (pod_priority(pod) >= 1000 || pod_memory(pod) == 0)
        return PASS;
    const struct node *node = read_node();
    if (!is(node_label(node, "topology.kubernetes.io/zone"), "edge-1"))
        return PASS;
    u64 taken = node_used_memory(node) + pod_memory(pod);
    return taken + (1ull << 30) <= node_memory(node) ? PASS : UNSCHEDULABLE;
}
