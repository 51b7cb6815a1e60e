// SPDX-License-Identifier: Apache-2.0
// A score: pods that ask for no CPU and no memory go where the fewest pods are for the node's room.
// What they use is counted nowhere, so that to the built-in scores a node looks the same however
// many of them it has.
//
//   examples/plugins/build least_pods.c
#include "sched.h"

READS_NO_LABEL

SCORE
{
    const struct pod *pod = read_pod3();
    if (pod_cpu(pod) || pod_memory(pod)) return 0;
    const struct node *node = read_node();
    // A cycle asks of nodes with room for this pod; whoever asks what rules alone say, of full
    // ones.
    u32 pods = node_pods(node), used = node_used_pods(node);
    return used < pods ? 100 * (pods - used - 1) / pods : 0;
}
