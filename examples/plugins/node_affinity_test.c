// SPDX-License-Identifier: Apache-2.0
// node_affinity as a program of this machine, so that a debugger and a sanitizer can look at it:
//
//   cc -g -fsanitize=address,undefined -o node_affinity_test examples/plugins/node_affinity_test.c
//   && ./node_affinity_test
#include "sched_test.h"

#include "node_affinity.c"

// The node that every pod here is asked about.
#define LONG "v23456789-123456789-123456789-123456789-123456789-123456789-123"
static const struct test_node node = { .name = "lab-1", .labels = { "arch", "amd64", "cores", "16", "disk", "nvme", "empty", "", "long", LONG, "most", "9223372036854775807", "zone", "a" } };
static int count;

static int passes(struct test_pod pod)
{
    pod.uid = "p1";
    ask_about(pod, node);
    count++;
    int code = filter();
    assert(code == PASS || code == UNSCHEDULABLE_AND_UNRESOLVABLE);
    return code == PASS;
}
static long long score_of(struct test_pod pod)
{
    assert(passes(pod));
    return score();
}
#define POD(...) ((struct test_pod) { .labels = { __VA_ARGS__ } })

static void operators(void)
{
    assert(passes(POD("/00/disk", "In/ssd/nvme")));
    assert(passes(POD("/00/disk", "In/nvme/ssd")));
    assert(!passes(POD("/00/disk", "In/ssd/nvm/nvme0")));
    assert(!passes(POD("/00/gpu", "In/a")));
    assert(passes(POD("/00/empty", "In/")));
    assert(passes(POD("/00/empty", "In/a/")));
    assert(!passes(POD("/00/empty", "In/a")));
    assert(!passes(POD("/00/disk", "In/")));
    assert(passes(POD("/00/disk", "In", "/01.more", "ssd/nvme")));
    assert(passes(POD("/00/long", "In", "/01.more", LONG)));
    assert(passes(POD("/00/disk", "In/a/b", "/01.more", "c", "/02.more", "nvme")));
    assert(!passes(POD("/00/disk", "NotIn/a/b", "/01.more", "c", "/02.more", "nvme")));
    assert(passes(POD("/00/disk", "NotIn/ssd")));
    assert(passes(POD("/00/gpu", "NotIn/a")));
    assert(passes(POD("/00/gpu", "DoesNotExist")));
    assert(!passes(POD("/00/disk", "DoesNotExist")));
    assert(passes(POD("/00/empty", "Exists")));
    assert(!passes(POD("/00/gpu", "Exists")));
    assert(passes(POD("/00/cores", "Gt/15")));
    assert(!passes(POD("/00/cores", "Gt/16")));
    assert(passes(POD("/00/cores", "Lt/17")));
    assert(!passes(POD("/00/cores", "Lt/16")));
    assert(!passes(POD("/00/disk", "Lt/17")));
    assert(!passes(POD("/00/gpu", "Lt/17")));
    assert(!passes(POD("/00/empty", "Lt/17")));
    assert(passes(POD("/00/most", "Gt/9223372036854775806")));
    assert(passes(POD("/00.metadata.name", "In/lab-1")));
    assert(!passes(POD("/00.metadata.name", "In/lab-2")));
    assert(!passes(POD("/00.metadata.name", "NotIn/lab-1")));
    // (a label of that name is another matter)
    assert(!passes(POD("/00/metadata.name", "In/lab-1")));
}

static void terms(void)
{
    assert(passes(POD("app", "web")));
    assert(passes(POD("/00/disk", "In/nvme", "/01/zone", "In/a", "app", "web")));
    assert(!passes(POD("/00/disk", "In/nvme", "/01/zone", "In/b")));
    assert(!passes(POD("/00/disk", "In/ssd", "/01.more", "tape", "/02/zone", "In/a")));
    assert(passes(POD("/00.either", "", "/01/zone", "In/b", "/02.or", "", "/03/zone", "In/a")));
    assert(passes(POD("/00.either", "", "/01/zone", "In/a", "/02.or", "", "/03/zone", "In/b")));
    assert(!passes(POD("/00.either", "", "/01/zone", "In/b", "/02/arch", "Exists", "/03.or", "", "/04/zone", "In/a", "/05/gpu", "Exists")));
    assert(!passes(POD("/00/disk", "In/ssd", "/01.either", "", "/02/zone", "In/a", "/03.or", "", "/04/zone", "In/b")));
    assert(!passes(POD("/00.either", "", "/01/zone", "In/a", "/02.either", "", "/03/arch", "In/arm64")));
    assert(!passes(POD("/00.either", "")));
    assert(!passes(POD("/00.either", "", "/01.or", "", "/02.prefer", "1", "/03/zone", "In/a")));
    assert(passes(POD("/00.either", "", "/01.or", "", "/02/zone", "In/a")));
}

static void scores(void)
{
    assert(score_of(POD("app", "web")) == 0);
    assert(score_of(POD("/00/zone", "In/a")) == 0);
    assert(score_of(POD("/00.prefer", "80", "/01/zone", "In/a", "/02.prefer", "40", "/03/gpu", "Exists")) == 66);
    assert(score_of(POD("/00.prefer", "80", "/01/zone", "In/b", "/02.prefer", "40", "/03/gpu", "Exists")) == 0);
    assert(score_of(POD("/00.either", "", "/01/zone", "In/b", "/02.or", "", "/03/disk", "Exists", "/04.prefer", "100", "/05/zone", "In", "/06.more", "a", "/07/disk", "Exists")) == 100);
    assert(score_of(POD("/00.prefer", "50", "/01.prefer", "50", "/02/zone", "In/a")) == 50);
}

int main(void)
{
    operators(), terms(), scores();
    printf("node_affinity: %d of %d\n", count, 48);
    return count != 48;
}
