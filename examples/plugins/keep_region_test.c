// SPDX-License-Identifier: Apache-2.0
// keep_region as a program of this machine, so that a debugger and a sanitizer can look at it:
//
//   cc -g -fsanitize=address,undefined -o keep_region_test examples/plugins/keep_region_test.c &&
//   ./keep_region_test
#include "sched_test.h"

#include "keep_region.c"

#define REGION "topology.kubernetes.io/region"

static int answer(struct test_pod pod, struct test_node node)
{
    pod.uid = "p1", node.name = "a";
    ask_about(pod, node);
    return filter();
}

int main(void)
{
    const struct test_pod plain = { 0 }, public = { .labels = { "data-class", "public" } }, personal = { .labels = { "app", "crm", "data-class", "personal" } };
    const struct test_node lab = { 0 }, de = { .labels = { REGION, "eu-central-1" } }, us = { .labels = { REGION, "us-east-1" } };
    assert(answer(plain, lab) == PASS);
    assert(answer(public, us) == PASS);
    assert(answer(personal, de) == PASS);
    assert(answer(personal, us) == UNSCHEDULABLE_AND_UNRESOLVABLE);
    assert(answer(personal, lab) == UNSCHEDULABLE_AND_UNRESOLVABLE);
    puts("keep_region: 5 of 5");
}
