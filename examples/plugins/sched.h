// SPDX-License-Identifier: Apache-2.0
// What wsched tells a plugin of a pod and of a node, and what a plugin answers. docs/PLUGINS.md
// shows how to begin; "Records" in docs/FORMATS.md has the layout that is read here.
//
//     #include "sched.h"
//     FILTER { return node_used_pods(read_node()) < 50 ? PASS : UNSCHEDULABLE; }
#pragma once

typedef unsigned char u8;
typedef unsigned int u32;
typedef unsigned long long u64;

// What a filter answers; any other number is an error. A score answers 0 to 100.
enum { PASS = 0, UNSCHEDULABLE = 2, UNSCHEDULABLE_AND_UNRESOLVABLE = 3 };
#ifdef __wasm__
#define EXPORTED(name) __attribute__((export_name(name)))
#define IMPORTED(name) __attribute__((import_module("sched"), import_name(name)))
#define IMPORTED2(name) __attribute__((import_module("sched2"), import_name(name)))
#define IMPORTED3(name) __attribute__((import_module("sched3"), import_name(name)))
#define SECTION(name, text) __asm__(".section .custom_section." name ",\"\",@\n.ascii " text "\n");
#else
// On a machine of its own a plugin is an ordinary program, and its test gives the two records: see
// keep_region_test.c.
#define EXPORTED(name)
#define IMPORTED(name)
#define IMPORTED2(name)
#define IMPORTED3(name)
#define SECTION(name, text)
#endif
#define FILTER EXPORTED("filter") int filter(void)
#define SCORE EXPORTED("score") long long score(void)
#define INLINED inline __attribute__((always_inline))

// What a rule says of itself beside its code, in custom sections of the module. They cost nothing
// and are kept by --strip-all.
//
//     REASON(2, "two pods are there already")  why a node is rejected: told to people
//     READS_LABEL("data-class")                a key that it reads, of pods or nodes; one for each
//     READS_NO_LABEL                           it reads none
//
// A row has 32 labels. Of a pod or a node with more, those that the rules name are told first: so a
// label that a rule reads and doesn't name may be missing. A reason has up to 200 bytes; its code
// is 2 or 3.
#define REASON(code, text) REASON_##code(#text) typedef char reason_##code##_has_1_to_200_bytes[sizeof text > 1 && sizeof text <= 201 ? 1 : -1];
#define REASON_2(text) SECTION("wsched.reason.2", text)
#define REASON_3(text) SECTION("wsched.reason.3", text)
#define READS_LABEL(key) SECTION("wsched.labels", #key "\n.ascii \"\\n\"")
#define READS_NO_LABEL SECTION("wsched.labels", "\"\\n\"")

// Each writes its record, where that has at most `limit` bytes, and answers how many it has.
IMPORTED("pod") u32 sched_pod(void *to, u32 limit);
IMPORTED("node") u32 sched_node(void *to, u32 limit);
// The same in version 2, whose records have a pod's tolerations and a node's taints as well. A
// module imports what it calls: a plugin that asks for version 1 alone has nothing of version 2.
IMPORTED2("pod") u32 sched2_pod(void *to, u32 limit);
IMPORTED2("node") u32 sched2_node(void *to, u32 limit);
// Version 2 of a pod without its uid, and of a node of which nothing is used: what many pods share,
// and what stays of a node while pods come and go. What a rule answers by these two alone is kept
// for all pods that are alike, so a site asks it seldom. Where it needs what is used, let it ask
// for the pod in version 3 and for the node in another: that is kept while as much is used.
IMPORTED3("pod") u32 sched3_pod(void *to, u32 limit);
IMPORTED3("node") u32 sched3_node(void *to, u32 limit);

// No record is longer. A layout of another version would be misread, so it traps. All fields but
// the tolerations and taints are read alike from all versions; a plugin asks for one of them.
struct pod { u8 bytes[8192]; };
struct node { u8 bytes[8192]; };
static inline const struct pod *read_pod(void)
{
    static struct pod record;
    sched_pod(&record, sizeof record);
    if (record.bytes[0] != 1) __builtin_trap();
    return &record;
}
static inline const struct node *read_node(void)
{
    static struct node record;
    sched_node(&record, sizeof record);
    if (record.bytes[0] != 1) __builtin_trap();
    return &record;
}

static inline const struct pod *read_pod2(void)
{
    static struct pod record;
    sched2_pod(&record, sizeof record);
    if (record.bytes[0] != 2) __builtin_trap();
    return &record;
}
static inline const struct node *read_node2(void)
{
    static struct node record;
    sched2_node(&record, sizeof record);
    if (record.bytes[0] != 2) __builtin_trap();
    return &record;
}

static inline const struct pod *read_pod3(void)
{
    static struct pod record;
    sched3_pod(&record, sizeof record);
    if (record.bytes[0] != 3) __builtin_trap();
    return &record;
}
static inline const struct node *read_node3(void)
{
    static struct node record;
    sched3_node(&record, sizeof record);
    if (record.bytes[0] != 3) __builtin_trap();
    return &record;
}

// Numbers stand at any address, their lowest byte first, as WebAssembly loads them.
static inline u32 four(const u8 *at) { u32 n; __builtin_memcpy(&n, at, 4); return n; }
static inline u64 eight(const u8 *at) { u64 n; __builtin_memcpy(&n, at, 8); return n; }

#ifdef __wasm__
// What a compiler calls for `u8 seen[200] = { 0 }` and `copy = *read_node()`. There is no C
// library; one that is linked in comes first, and a module that needs none of these has none.
#define OF_C __attribute__((weak, no_builtin))
#ifdef __cplusplus
extern "C" {
#endif
OF_C void *memcpy(void *to, const void *from, __SIZE_TYPE__ size)
{
    u8 *at = (u8 *)to;
    const u8 *next = (const u8 *)from;
    for (; size >= 8; at += 8, next += 8, size -= 8) {
        u64 n = eight(next);
        __builtin_memcpy(at, &n, 8);
    }
    for (; size; size--) *at++ = *next++;
    return to;
}
OF_C void *memmove(void *to, const void *from, __SIZE_TYPE__ size)
{
    u8 *at = (u8 *)to;
    const u8 *next = (const u8 *)from;
    if (at <= next || at >= next + size) return memcpy(to, from, size);
    while (size--) at[size] = next[size];
    return to;
}
OF_C void *memset(void *to, int byte, __SIZE_TYPE__ size)
{
    u8 *at = (u8 *)to;
    const u64 n = 0x0101010101010101 * (u8)byte;
    for (; size >= 8; at += 8, size -= 8) __builtin_memcpy(at, &n, 8);
    for (; size; size--) *at++ = (u8)byte;
    return to;
}
OF_C int memcmp(const void *a, const void *b, __SIZE_TYPE__ size)
{
    const u8 *one = (const u8 *)a, *other = (const u8 *)b;
    for (; size; size--, one++, other++)
        if (*one != *other) return *one - *other;
    return 0;
}
#ifdef __cplusplus
}
#endif
#endif

// The fields behind the uid or the name, which is a text at offset 2.
static inline const u8 *fields(const u8 *record) { return record + 3 + record[2]; }

// CPU in thousandths of a core, memory in bytes. Used is what the pods there ask for, without the
// pod in question.
static inline int pod_priority(const struct pod *p) { return (int)four(fields(p->bytes)); }
static inline u64 pod_cpu(const struct pod *p) { return eight(fields(p->bytes) + 4); }
static inline u64 pod_memory(const struct pod *p) { return eight(fields(p->bytes) + 12); }
static inline int node_unschedulable(const struct node *n) { return fields(n->bytes)[0]; }
static inline u64 node_cpu(const struct node *n) { return eight(fields(n->bytes) + 1); }
static inline u64 node_memory(const struct node *n) { return eight(fields(n->bytes) + 9); }
static inline u32 node_pods(const struct node *n) { return four(fields(n->bytes) + 17); }
static inline u64 node_used_cpu(const struct node *n) { return eight(fields(n->bytes) + 21); }
static inline u64 node_used_memory(const struct node *n) { return eight(fields(n->bytes) + 29); }
static inline u32 node_used_pods(const struct node *n) { return four(fields(n->bytes) + 37); }

// Whether two places have the same bytes: eight at once, the last of them first, since keys are
// long and begin alike.
static inline int same_bytes(const u8 *a, const u8 *b, u32 size)
{
    if (size >= 8) {
        if (eight(a + size - 8) != eight(b + size - 8)) return 0;
        for (u32 i = 0; i < size - 8; i += 8)
            if (eight(a + i) != eight(b + i)) return 0;
        return 1;
    }
    if (size >= 4) return four(a) == four(b) && four(a + size - 4) == four(b + size - 4);
    for (; size; size--)
        if (*a++ != *b++) return 0;
    return 1;
}
// How long a word is: for one that stands in the source the compiler knows it.
static INLINED u32 length(const char *word)
{
    u32 size = 0;
    while (word[size]) size++;
    return size;
}

// A text is its length in one byte and its bytes, none of them 0. Null is no text, and equals
// nothing. What a rule reads through null by itself is no fault: address 0 is memory like all
// other.
static INLINED int is_word(const u8 *text, const char *word, u32 size)
{
    return *text == size && same_bytes(text + 1, (const u8 *)word, size);
}
static INLINED int is(const u8 *text, const char *word) { return text && is_word(text, word, length(word)); }
static inline int same(const u8 *a, const u8 *b) { return a && b && *a == *b && same_bytes(a + 1, b + 1, *a); }

// The value of the label with this key, a text, or null.
static INLINED const u8 *find_label(const u8 *labels, const u8 *key, u32 size)
{
    for (u32 left = *labels; left; left--) {
        u32 own = labels[1];
        if (own == size && same_bytes(labels + 2, key, size)) return labels + 2 + own;
        labels += own;
        labels += 2 + labels[2];
    }
    return 0;
}
static INLINED const u8 *label(const u8 *labels, const char *key) { return find_label(labels, (const u8 *)key, length(key)); }
static INLINED const u8 *pod_label(const struct pod *p, const char *key)
{
    return label(fields(p->bytes) + 20, key);
}
static INLINED const u8 *node_label(const struct node *n, const char *key)
{
    return label(fields(n->bytes) + 41, key);
}
// A walk over labels, in the order of their keys' bytes:
//
//     struct label label;
//     for (struct walk labels = pod_labels(pod); next_label(&labels, &label);)
//         if (is(label.key, "app")) ..
struct walk { const u8 *at; u32 left; };
struct label { const u8 *key, *value; };
static inline struct walk pod_labels(const struct pod *p)
{
    const u8 *labels = fields(p->bytes) + 20;
    struct walk all = { labels + 1, *labels };
    return all;
}
static inline struct walk node_labels(const struct node *n)
{
    const u8 *labels = fields(n->bytes) + 41;
    struct walk all = { labels + 1, *labels };
    return all;
}

// The next of a walk, if there is one.
static inline int next_label(struct walk *labels, struct label *next)
{
    if (!labels->left) return 0;
    labels->left--;
    next->key = labels->at;
    next->value = next->key + 1 + *next->key;
    labels->at = next->value + 1 + *next->value;
    return 1;
}

// A site's setting, which the script tells as the node's label `/cfg/NAME`: a text, or null where
// there is none.
static INLINED const u8 *setting(const struct node *n, const char *name)
{
    const u32 size = length(name);
    struct label it;
    for (struct walk labels = node_labels(n); next_label(&labels, &it);)
        if (size && *it.key == 5 + size && same_bytes(it.key + 6, (const u8 *)name, size) && same_bytes(it.key + 1, (const u8 *)"/cfg/", 5))
            return it.value;
    return 0;
}
// A setting that is a number in digits alone, at most 2^63 - 1, and `otherwise` where there is
// none. A text that is no such number traps: a slip of the site's must not pass for a setting.
static INLINED u64 setting_number(const struct node *n, const char *name, u64 otherwise)
{
    const u8 *text = setting(n, name);
    if (!text) return otherwise;
    u64 number = 0;
    if (!*text) __builtin_trap();
    for (u32 i = 1; i <= *text; i++) {
        u32 digit = text[i] - '0';
        if (digit > 9 || number > ((1ull << 63) - 1 - digit) / 10) __builtin_trap();
        number = 10 * number + digit;
    }
    return number;
}
static inline const u8 *pod_uid(const struct pod *p) { return p->bytes + 2; }
static inline const u8 *node_name(const struct node *n) { return n->bytes + 2; }

// What a taint does, and what a toleration's taint does: NO_EFFECT, of tolerations alone, stands
// for every effect. A toleration compares the values, or takes every value.
enum { NO_EFFECT = 0, NO_SCHEDULE = 1, PREFER_NO_SCHEDULE = 2, NO_EXECUTE = 3 };
enum { EQUAL = 1, EXISTS = 2 };
struct taint { const u8 *key, *value; u8 effect; };
struct toleration { const u8 *key, *value; u8 compares, effect; };

// A walk over a node's taints or a pod's tolerations, in the order of the row, of what read_node2,
// read_node3, read_pod2 or read_pod3 gave:
//
//     struct taint taint;
//     for (struct walk taints = node_taints(node); next_taint(&taints, &taint);)
//         if (is(taint.key, "spot")) ..

// The list behind labels. Version 1 has none, so it traps there.
static inline struct walk behind(const u8 *record, const u8 *labels)
{
    if (*record < 2) __builtin_trap();
    for (u32 left = 2u * *labels++; left; left--)
        labels += 1 + *labels;
    struct walk list = { labels + 1, *labels };
    return list;
}
static inline struct walk node_taints(const struct node *n) { return behind(n->bytes, fields(n->bytes) + 41); }
static inline struct walk pod_tolerations(const struct pod *p) { return behind(p->bytes, fields(p->bytes) + 20); }

// The next of a walk, if there is one.
static inline int next_taint(struct walk *taints, struct taint *next)
{
    if (!taints->left) return 0;
    taints->left--;
    next->key = taints->at;
    next->value = next->key + 1 + *next->key;
    const u8 *effect = next->value + 1 + *next->value;
    next->effect = *effect;
    taints->at = effect + 1;
    return 1;
}
static inline int next_toleration(struct walk *tolerations, struct toleration *next)
{
    if (!tolerations->left) return 0;
    tolerations->left--;
    next->key = tolerations->at;
    const u8 *compares = next->key + 1 + *next->key;
    next->compares = *compares;
    next->value = compares + 1;
    const u8 *effect = next->value + 1 + *next->value;
    next->effect = *effect;
    tolerations->at = effect + 1;
    return 1;
}

// Whether a pod tolerates a taint, as Kubernetes has it: one of its tolerations has the taint's
// key, or none and takes every value; it takes every value or has the taint's; and it has the
// taint's effect or none.
static inline int tolerates(const struct pod *p, const struct taint *taint)
{
    struct toleration own;
    for (struct walk tolerations = pod_tolerations(p); next_toleration(&tolerations, &own);) {
        int any = own.compares == EXISTS;
        if ((same(own.key, taint->key) || (any && !*own.key)) && (any || same(own.value, taint->value))
            && (own.effect == NO_EFFECT || own.effect == taint->effect))
            return 1;
    }
    return 0;
}
