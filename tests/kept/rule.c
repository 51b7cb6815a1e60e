// SPDX-License-Identifier: Apache-2.0
// A rule whose records are those of version RECORDS. What it says depends on what versions 2 and 3
// tell alike, so that it says the same of every pod and node in both; what else it does is picked
// by KIND:
//   0 reads the pod and the node's row
//   1 what is used too
//   2 the uid too
//   3 the pod alone
//   4 the node alone
//   5 is cut off for some, uses up its fuel for some, gives no code for some
//   6 keeps a count of its calls
#define FROM2(v) "sched" #v
#define FROM(v) FROM2(v)
__attribute__((import_module(FROM(RECORDS)), import_name("pod"))) unsigned pod_record(unsigned char *, unsigned);
__attribute__((import_module(FROM(RECORDS)), import_name("node"))) unsigned node_record(unsigned char *, unsigned);
__attribute__((import_module("sched2"), import_name("pod"))) unsigned whole_pod(unsigned char *, unsigned);
__attribute__((import_module("sched2"), import_name("node"))) unsigned whole_node(unsigned char *, unsigned);

static unsigned char pod[8192], node[8192];
static unsigned calls;

static unsigned mixed(unsigned hash, const unsigned char *from, const unsigned char *to) {
    for (; from < to; from++) hash = (hash ^ *from) * 16777619u;
    return hash;
}

// What a pod's record tells behind the uid.
static unsigned of_pod(void) {
    unsigned size = pod_record(pod, sizeof pod);
    return mixed(2166136261u, pod + 3 + pod[2], pod + size);
}

// What a node's record tells but for what is used.
static unsigned of_node(unsigned hash) {
    unsigned size = node_record(node, sizeof node), behind = 3 + node[2] + 21;
    return mixed(mixed(hash, node + 2, node + behind), node + behind + 20, node + size);
}

static unsigned all(void) {
    unsigned hash = KIND == 4 ? 2166136261u : of_pod();
    if (KIND != 3) hash = of_node(hash);
    if (KIND == 1) {
        whole_node(node, sizeof node);
        hash = mixed(hash, node + 3 + node[2] + 21, node + 3 + node[2] + 41);
    }
    if (KIND == 2) {
        whole_pod(pod, sizeof pod);
        hash = mixed(hash, pod + 2, pod + 3 + pod[2]);
    }
    if (KIND == 5) {
        if (hash % 997 == 0) __builtin_trap();
        if (hash % 991 == 0) for (volatile unsigned spin = 0;; spin++) {}
        if (hash % 983 == 0) return 4;
    }
    if (KIND == 6) hash += calls++;
    return hash;
}

__attribute__((export_name("filter"))) int filter(void) {
    unsigned hash = all();
    if (KIND == 5 && hash == 4) return 7;
    return hash % 5 == 0 ? 2 : hash % 7 == 0 ? 3 : 0;
}

__attribute__((export_name("score"))) long long score(void) { return (all() >> 8) % 101; }
