// SPDX-License-Identifier: Apache-2.0
// A filter and a score: what a pod asks of its node's labels and name. Node selectors, node
// affinity and the zones of volumes are told as labels of the pod's row, entries whose keys begin
// with `/`; docs/NODE-AFFINITY.md has their spelling.
//
//   examples/plugins/build node_affinity.c
#include "sched.h"

// (the labels of nodes that a pod's entries name are known to whoever writes the entries)
READS_NO_LABEL
REASON(3, "the node isn't what the pod's node selector, its node affinity or its volumes ask for")

// A part of a text.
struct part { const u8 *at; u32 size; };

static INLINED struct part whole(const u8 *text) { return (struct part) { text + 1, *text }; }
static INLINED int is_same(struct part a, struct part b) { return a.size == b.size && same_bytes(a.at, b.at, a.size); }
#define LITERAL(word) ((struct part) { (const u8 *)word, sizeof word - 1 })
#define IS(text, word) is_same(text, LITERAL(word))

// How many bytes stand in front of the first slash: eight are looked at at once. (Eight can be read
// behind each byte of a record, since its buffer is longer than any record.)
static INLINED u32 before_slash(struct part text)
{
    const u64 ones = 0x0101010101010101;
    for (u32 i = 0; i < text.size; i += 8) {
        // A byte is 0 where a slash stands, and the first of these has its highest bit set then.
        u64 slashes = eight(text.at + i) ^ '/' * ones, found = (slashes - ones) & ~slashes & ones << 7;
        if (!found) continue;
        u32 at = i + (u32)__builtin_ctzll(found) / 8;
        return at < text.size ? at : text.size;
    }
    return text.size;
}
// What stands behind so many bytes and a slash, or null where there is no slash.
static INLINED struct part past(struct part text, u32 size)
{
    return size < text.size ? (struct part) { text.at + size + 1, text.size - size - 1 } : (struct part) { 0, 0 };
}
// Whether a text has this word in front of its first slash, or is it. The word has no slash.
static INLINED int begins(struct part text, struct part word)
{
    return text.size >= word.size && same_bytes(text.at, word.at, word.size) && (text.size == word.size || text.at[word.size] == '/');
}
#define BEGINS(text, word) begins(text, LITERAL(word))

// A whole number from 0 to 2^63 - 1 in digits alone; -1 for any other text.
static long long number(struct part digits)
{
    u64 n = 0;
    for (u32 i = 0; i < digits.size; i++) {
        u32 digit = digits.at[i] - '0';
        if (digit > 9 || n > ((1ull << 63) - 1 - digit) / 10) return -1;
        n = 10 * n + digit;
    }
    return digits.size ? (long long)n : -1;
}

// The entry at hand, and the labels behind it. (What has a place of its own costs least to read and
// to write.)
enum kind { LABEL, NAME, MORE, EITHER, OR, PREFER, END };
static struct { struct walk rest; enum kind kind; struct label label; } entry;

// Its key without `/NN/` or `/NN.`, and its value.
static INLINED struct part key(void) { return (struct part) { entry.label.key + 5, *entry.label.key - 4u }; }
static INLINED struct part value(void) { return whole(entry.label.value); }

static INLINED enum kind kind(struct part word)
{
    if (IS(word, "more")) return MORE;
    if (IS(word, "either")) return EITHER;
    if (IS(word, "or")) return OR;
    if (IS(word, "prefer")) return PREFER;
    if (IS(word, "metadata.name")) return NAME;
    __builtin_trap();
}

// Whether these are `/NN/` or `/NN.`, lowest byte first: a slash, two digits, and a byte that is
// one of the two but for its last bit.
static INLINED int is_front(u32 bytes)
{
    return (bytes & 0xFEF0F0FF) == 0x2E30302F && ((bytes + 0x00060600) & 0x00F0F000) == 0x00303000;
}

// Goes on to the next entry, past labels that are none.
static void go_on(void)
{
    while (next_label(&entry.rest, &entry.label)) {
        const u8 *text = entry.label.key;
        u32 front = four(text + 1);
        if (*text >= 5 && is_front(front)) {
            entry.kind = front >> 24 == '/' ? LABEL : kind(key());
            return;
        }
        // (labels come in order: behind a greater key no entry comes)
        if (*text && text[1] > '/') break;
        if (*text >= 2 && text[1] == '/' && (u8)(text[2] - '0') <= 9) __builtin_trap();
    }
    entry.kind = END;
}
static INLINED int is_requirement(void) { return entry.kind == LABEL || entry.kind == NAME; }

// What the requirement at hand is about: the node's name, or its label, which it may not have. Then
// it is null.
static INLINED const u8 *look_up(const struct node *node)
{
    return entry.kind == NAME ? node_name(node) : find_label(node_labels(node).at - 1, key().at, key().size);
}

// Whether the values from `values` on, and of the entries that go on with them, have this one.
// There must be some.
static INLINED int lists(struct part values, const u8 *wanted)
{
    int listed = 0, any = values.at != 0;
    while (1) {
        for (; wanted && values.at && !listed; values = past(values, before_slash(values)))
            if (begins(values, whole(wanted))) {
                // (one that has a slash is none of them)
                listed = before_slash(whole(wanted)) == *wanted;
                break;
            }
        go_on();
        if (entry.kind != MORE) break;
        values = value(), any = 1;
    }
    if (!any) __builtin_trap();
    return listed;
}

// Whether the requirement at hand holds. Goes on to the entry behind it.
static INLINED int holds(const struct node *node)
{
    const struct part how = value();
    const u8 *own = look_up(node);
    int is_in = BEGINS(how, "In");
    if (is_in || BEGINS(how, "NotIn")) return lists(past(how, is_in ? 2 : 5), own) == is_in;
    if (entry.kind == NAME) __builtin_trap();
    go_on();
    if (BEGINS(how, "Exists")) return own != 0;
    if (BEGINS(how, "DoesNotExist")) return !own;
    int above = BEGINS(how, "Gt");
    long long limit = number(past(how, 2)), n = own ? number(whole(own)) : -1;
    if ((!above && !BEGINS(how, "Lt")) || limit < 0) __builtin_trap();
    return n >= 0 && (above ? n > limit : n < limit);
}

// Whether all requirements from here on hold. Goes on to what is none.
static int all_hold(const struct node *node)
{
    int hold = 1;
    while (is_requirement())
        if (hold)
            hold = holds(node);
        else
            do go_on();
            while (entry.kind == MORE);
    return hold;
}
// The term that begins behind the entry at hand: one without requirements matches nothing.
static int term_holds(const struct node *node)
{
    go_on();
    return is_requirement() && all_hold(node);
}

static void first(void)
{
    entry.rest = pod_labels(read_pod3());
    go_on();
}

// Whatever pods come and go, the node keeps its labels: a node that is rejected is so for good.
FILTER
{
    first();
    if (entry.kind == END) return PASS;
    const struct node *node = read_node3();
    if (!all_hold(node)) return UNSCHEDULABLE_AND_UNRESOLVABLE;
    while (entry.kind == EITHER) {
        int one = term_holds(node);
        while (entry.kind == OR)
            one |= term_holds(node);
        if (!one) return UNSCHEDULABLE_AND_UNRESOLVABLE;
    }
    if (entry.kind != PREFER && entry.kind != END) __builtin_trap();
    return PASS;
}

SCORE
{
    first();
    while (entry.kind != PREFER && entry.kind != END)
        go_on();
    if (entry.kind == END) return 0;
    const struct node *node = read_node3();
    u32 matched = 0, all = 0;
    while (entry.kind == PREFER) {
        u64 weight = (u64)number(value());
        if (weight - 1 > 99) __builtin_trap();
        all += (u32)weight;
        if (term_holds(node)) matched += (u32)weight;
    }
    if (entry.kind != END) __builtin_trap();
    return 100 * matched / all;
}
