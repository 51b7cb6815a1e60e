// SPDX-License-Identifier: Apache-2.0
// Texts that are compared by eight bytes at once, beside a comparison byte by byte: of each length,
// with a change at each place, and with what stands behind a text being another. As a program of
// this machine.
#include "sched_test.h"

static int by_bytes(const u8 *a, const u8 *b)
{
    if (*a != *b) return 0;
    for (u32 i = 1; i <= *a; i++)
        if (a[i] != b[i]) return 0;
    return 1;
}

static int asked;
static void compare(const u8 *a, const u8 *b)
{
    char word[64] = { 0 };
    memcpy(word, b + 1, *b);
    asked++;
    assert(same(a, b) == by_bytes(a, b));
    assert(is(a, word) == by_bytes(a, b));
    // (as a label's key, behind one that has the same bytes and more, and in front of another)
    u8 labels[512] = { 3 }, *at = labels + 1;
    *at++ = 63, memset(at, 'z', 63), memcpy(at, b + 1, *b < 62 ? *b : 62), at[62] = '!', at += 63, *at++ = 1, *at++ = '1';
    memcpy(at, a, 1u + *a), at += 1 + *a;
    const u8 *value = at;
    *at++ = 1, *at++ = '2', *at++ = 0, *at++ = 0;
    const u8 *found = label(labels, word);
    assert(*b == 0 ? found != 0 : (found == value) == by_bytes(a, b));
}

static void settings(void)
{
    const struct test_node it = { .name = "a", .labels = { "/aaa/few", "0", "/cfg", "0", "/cfg/", "1", "/cfg/fee", "4", "/cfg/few", "2", "/cfg/few.limit", "20", "cfg/few", "3" } };
    ask_about((struct test_pod) { .uid = "p" }, it);
    const struct node *node = read_node();
    assert(is(setting(node, "few"), "2") && is(setting(node, "few.limit"), "20") && !setting(node, "") && !setting(node, "fe") && !setting(node, "few."));
    assert(setting_number(node, "few.limit", 7) == 20 && setting_number(node, "limit", 7) == 7);
}

int main(void)
{
    assert(!is(0, "") && !same(0, (const u8 *)"\0") && !same((const u8 *)"\0", 0));
    for (u32 size = 0; size <= 63; size++) {
        u8 a[72], b[72];
        memset(a, 'x', sizeof a), memset(b, 'y', sizeof b);
        *a = *b = (u8)size;
        for (u32 i = 1; i <= size; i++) a[i] = b[i] = (u8)('a' + i % 26);
        compare(a, b);
        for (u32 i = 1; i <= size; i++) {
            b[i] ^= 1;
            compare(a, b);
            b[i] ^= 1;
        }
        if (size) *b = (u8)(size - 1), compare(a, b), compare(b, a);
    }
    settings();
    printf("%d comparisons\n", asked);
    return asked != 64 + 63 * 64 / 2 + 63 * 2;
}
