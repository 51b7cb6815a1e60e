// SPDX-License-Identifier: Apache-2.0
// A score: 50 in the zone that the pod wishes for by its label wished-zone, and up to 50 for room
// for further pods.
//
//   examples/plugins/build prefer_zone.c
#include "sched.h"

READS_LABEL("wished-zone")
READS_LABEL("topology.kubernetes.io/zone")

SCORE
{
    // The wish comes first: most pods have none, and then no label of the node is read.
    const u8 *wish = pod_label(read_pod3(), "wished-zone");
    const struct node *node = read_node();
    int there = wish && same(wish, node_label(node, "topology.kubernetes.io/zone"));
    // A cycle asks of nodes with room for this pod; whoever asks what rules alone say, of full
    // ones.
    u32 pods = node_pods(node), used = node_used_pods(node);
    return (there ? 50 : 0) + (used < pods ? 50 * (pods - used - 1) / pods : 0);
}
