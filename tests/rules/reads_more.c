// SPDX-License-Identifier: Apache-2.0
// It reads a label that it doesn't name.
#include "sched.h"

READS_LABEL("zone")
REASON(2, "the pod is one of \"web\", naïve as it is")

FILTER
{
    return is(pod_label(read_pod(), "app"), "web") ? UNSCHEDULABLE : PASS;
}
