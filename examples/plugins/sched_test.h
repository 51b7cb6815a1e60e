// SPDX-License-Identifier: Apache-2.0
// A plugin as a program of this machine: what hands its records over in place of wsched, so that a
// debugger and a sanitizer can look at it. A test includes this and the plugin's source, says which
// pod and which node it asks about, and calls filter() and score():
//
//     ask_about((struct test_pod) { .uid = "p1", .labels = { "app", "web" } }, (struct test_node) {
//     .name = "a", .pods = 110 }); assert(filter() == PASS);
//
// What isn't named is 0 or empty. "Records" in docs/FORMATS.md has the layout that is written here.
#pragma once
#include <assert.h>
#include <stdio.h>
#include <string.h>

#include "sched.h"

// Keys and values in turn, up to 32 of each; then null.
#define TEXTS (2 * 32 + 1)
struct test_taint { const char *key, *value; u8 effect; };
struct test_toleration { const char *key; u8 compares; const char *value; u8 effect; };
struct test_pod {
    const char *uid;
    int priority;
    u64 cpu, memory;
    const char *labels[TEXTS];
    struct test_toleration tolerations[16 + 1];
};
struct test_node {
    const char *name;
    int unschedulable;
    u64 cpu, memory;
    u32 pods;
    u64 used_cpu, used_memory;
    u32 used_pods;
    const char *labels[TEXTS];
    struct test_taint taints[8 + 1];
};

static struct { u8 bytes[8192]; u32 size; } test_records[3][2];

static inline void put(u8 **at, u64 number, int size)
{
    for (; size; size--, number >>= 8) *(*at)++ = (u8)number;
}
static inline void put_text(u8 **at, const char *text)
{
    size_t size = text ? strlen(text) : 0;
    assert(size <= 63);
    put(at, size, 1);
    if (size) memcpy(*at, text, size);
    *at += size;
}
// In rising order of their keys' bytes, each key once.
static inline void put_labels(u8 **at, const char *const *labels)
{
    int count = 0;
    while (labels[2 * count]) count++;
    put(at, (u64)count, 1);
    const char *last = "";
    for (int left = count; left; left--) {
        int least = -1;
        for (int i = 0; i < count; i++)
            if (strcmp(labels[2 * i], last) > 0 && (least < 0 || strcmp(labels[2 * i], labels[2 * least]) < 0)) least = i;
        assert(least >= 0);
        put_text(at, last = labels[2 * least]);
        put_text(at, labels[2 * least + 1]);
    }
}
static inline void ask_about(struct test_pod pod, struct test_node node)
{
    for (u8 version = 1; version <= 3; version++) {
        u8 *start = test_records[version - 1][0].bytes, *at = start;
        put(&at, version, 1), put(&at, 1, 1), put_text(&at, version == 3 ? "" : pod.uid), put(&at, (u32)pod.priority, 4);
        put(&at, pod.cpu, 8), put(&at, pod.memory, 8), put_labels(&at, pod.labels);
        u8 *count = at;
        for (int i = *at++ = 0; version > 1 && pod.tolerations[i].compares; i++, ++*count)
            put_text(&at, pod.tolerations[i].key), put(&at, pod.tolerations[i].compares, 1), put_text(&at, pod.tolerations[i].value), put(&at, pod.tolerations[i].effect, 1);
        test_records[version - 1][0].size = (u32)((version > 1 ? at : count) - start);

        start = at = test_records[version - 1][1].bytes;
        put(&at, version, 1), put(&at, 2, 1), put_text(&at, node.name), put(&at, node.unschedulable != 0, 1);
        put(&at, node.cpu, 8), put(&at, node.memory, 8), put(&at, node.pods, 4);
        const int shows_used = version < 3;
        put(&at, shows_used * node.used_cpu, 8), put(&at, shows_used * node.used_memory, 8), put(&at, shows_used * node.used_pods, 4);
        put_labels(&at, node.labels);
        count = at;
        for (int i = *at++ = 0; version > 1 && node.taints[i].key; i++, ++*count)
            put_text(&at, node.taints[i].key), put_text(&at, node.taints[i].value), put(&at, node.taints[i].effect, 1);
        test_records[version - 1][1].size = (u32)((version > 1 ? at : count) - start);
    }
}

static inline u32 hand_over(void *to, u32 limit, int version, int kind)
{
    u32 size = test_records[version - 1][kind].size;
    if (size <= limit) memcpy(to, test_records[version - 1][kind].bytes, size);
    return size;
}
u32 sched_pod(void *to, u32 limit) { return hand_over(to, limit, 1, 0); }
u32 sched_node(void *to, u32 limit) { return hand_over(to, limit, 1, 1); }
u32 sched2_pod(void *to, u32 limit) { return hand_over(to, limit, 2, 0); }
u32 sched2_node(void *to, u32 limit) { return hand_over(to, limit, 2, 1); }
u32 sched3_pod(void *to, u32 limit) { return hand_over(to, limit, 3, 0); }
u32 sched3_node(void *to, u32 limit) { return hand_over(to, limit, 3, 1); }
