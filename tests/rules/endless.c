// SPDX-License-Identifier: Apache-2.0
// Of pods with a label `app` the call doesn't end on nodes of a zone; other calls cost little.
#include "sched.h"

READS_LABEL("app")
READS_LABEL("zone")

FILTER
{
    if (!pod_label(read_pod(), "app") || !node_label(read_node(), "zone")) return PASS;
    volatile u32 turns = 1;
    while (turns) turns |= 1;
    return PASS;
}
