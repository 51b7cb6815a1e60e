// SPDX-License-Identifier: Apache-2.0
// A filter: pods labelled data-class=personal run in the region eu-central-1 and nowhere else.
//
//   examples/plugins/build keep_region.c
#include "sched.h"

READS_LABEL("data-class")
READS_LABEL("topology.kubernetes.io/region")
REASON(3, "pods labelled data-class=personal run in the region eu-central-1 alone")

FILTER
{
    if (!is(pod_label(read_pod3(), "data-class"), "personal"))
        return PASS;
    const u8 *region = node_label(read_node3(), "topology.kubernetes.io/region");
    // Whatever pods come and go, the node stays where it is.
    return is(region, "eu-central-1") ? PASS : UNSCHEDULABLE_AND_UNRESOLVABLE;
}
