// SPDX-License-Identifier: Apache-2.0
// A filter: a node passes that has the label `disk` with the value `ssd`.

__attribute__((import_module("sched"), import_name("node")))
unsigned node(unsigned char *pointer, unsigned limit);

static unsigned char record[8192];

static int same(const unsigned char *text, const char *wanted, unsigned length) {
    if (text[0] != length)
        return 0;
    for (unsigned i = 0; i < length; i++)
        if (text[1 + i] != wanted[i])
            return 0;
    return 1;
}

__attribute__((export_name("filter")))
int filter(void) {
    node(record, sizeof record);
    // A version and a kind, the name with its length before it, the mark, and two times cpu, memory
    // and pods.
    const unsigned char *labels = record + 3 + record[2] + 1 + 40;
    const unsigned char *key = labels + 1;
    for (unsigned count = labels[0]; count > 0; count--) {
        const unsigned char *value = key + 1 + key[0];
        if (same(key, "disk", 4))
            return same(value, "ssd", 3) ? 0 : 2;
        key = value + 1 + value[0];
    }
    return 2;
}
