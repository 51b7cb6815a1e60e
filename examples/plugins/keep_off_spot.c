// SPDX-License-Identifier: Apache-2.0
// A filter: nodes with a taint `spot` are for pods that tolerate it, also where the taint's effect
// is PreferNoSchedule, by which wsched alone only likes other nodes better.
//
//   examples/plugins/build keep_off_spot.c
#include "sched.h"

READS_NO_LABEL
REASON(3, "the pod doesn't tolerate the taint spot")

FILTER
{
    const struct pod *pod = read_pod3();
    struct taint taint;
    for (struct walk taints = node_taints(read_node3()); next_taint(&taints, &taint);)
        if (is(taint.key, "spot") && !tolerates(pod, &taint))
            // The node stays what it is, whatever pods come and go.
            return UNSCHEDULABLE_AND_UNRESOLVABLE;
    return PASS;
}
