// SPDX-License-Identifier: Apache-2.0
// What a compiler makes of plain C: tables that are zero at first, copies of a whole record, and
// bytes that are moved and compared. It passes a node where each has come out right; its names are
// told from one another by their bytes.
#include "sched.h"

extern void *memmove(void *, const void *, __SIZE_TYPE__);
extern int memcmp(const void *, const void *, __SIZE_TYPE__);

static struct node copy;
static u8 moved[300];

FILTER
{
    u8 seen[200] = { 0 };
    copy = *read_node();
    const u8 *name = node_name(&copy);
    for (u32 i = 0; i < *name; i++) seen[name[1 + i] % 200]++;
    u32 sum = 0;
    for (u32 i = 0; i < sizeof seen; i++) sum += seen[i];
    if (sum != *name) return 3;

    // (three ways to overlap, and none)
    for (u32 i = 0; i < sizeof moved; i++) moved[i] = (u8)i;
    memmove(moved + 5, moved, 100);
    for (u32 i = 0; i < 100; i++)
        if (moved[5 + i] != i) return 3;
    memmove(moved, moved + 5, 100);
    for (u32 i = 0; i < 100; i++)
        if (moved[i] != i) return 3;
    memmove(moved + 150, moved, 100);
    if (memcmp(moved + 150, moved, 100) != 0) return 3;
    moved[249] = 0;
    if (memcmp(moved + 150, moved, 100) >= 0 || memcmp(moved, moved + 150, 100) <= 0 || memcmp(moved + 150, moved, 99) != 0) return 3;
    return PASS;
}
