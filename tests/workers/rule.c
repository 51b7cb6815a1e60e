// SPDX-License-Identifier: Apache-2.0
// A filter that lets every node pass, and how dear that is. It reads the pod's uid where UID is
// set, so that what it says is kept for no other pod, and the node's record where NODE is set.
#include "../../examples/plugins/sched.h"

FILTER
{
    u32 sum = UID ? read_pod()->bytes[3] : 0;
    if (NODE) sum += read_node()->bytes[3];
    for (volatile u32 turn = 0; turn < TURNS; turn++) sum = sum * 3 + turn;
    return sum == 0 ? UNSCHEDULABLE : PASS;
}
