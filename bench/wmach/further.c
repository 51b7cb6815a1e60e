// SPDX-License-Identifier: Apache-2.0
// Five further programs for the benchmark of the machine, to which nobody tunes it, one for each
// value of PROGRAM. Each is a module with one export, `filter`.
typedef unsigned char u8;
typedef unsigned int u32;
typedef unsigned long long u64;

static u32 seed = 1;
static inline u32 number(void) { return (seed = seed * 1664525u + 1013904223u) >> 8; }

#if PROGRAM == 1
// labels: how many of a node's labels a rule asks for, each by its key's and its value's bytes
#define NODES 200
#define LABELS 10
typedef struct { u8 key[24], value[16]; u32 key_length, value_length; } label;
static label nodes[NODES][LABELS], wanted[4];
static void fill(label *l, u32 key, u32 value) {
    static const u8 prefix[] = "topology.example/";
    l->key_length = 0;
    for (u32 i = 0; i < sizeof prefix - 1; i++) l->key[l->key_length++] = prefix[i];
    for (u32 i = 0; i < 4; i++) l->key[l->key_length++] = (u8)('a' + (key >> 3 * i & 7));
    l->value_length = 4 + value % 8;
    for (u32 i = 0; i < l->value_length; i++) l->value[i] = (u8)('a' + (value + i) % 26);
}
static int same(const u8 *a, u32 m, const u8 *b, u32 n) {
    if (m != n) return 0;
    for (u32 i = 0; i < m; i++)
        if (a[i] != b[i]) return 0;
    return 1;
}
static int has(const label *node, const label *l) {
    for (u32 i = 0; i < LABELS; i++)
        if (same(node[i].key, node[i].key_length, l->key, l->key_length)) return same(node[i].value, node[i].value_length, l->value, l->value_length);
    return 0;
}
__attribute__((export_name("filter"))) int filter(void) {
    u32 found = 0;
    for (u32 n = 0; n < NODES; n++)
        for (u32 i = 0; i < LABELS; i++) fill(&nodes[n][i], i, number());
    for (u32 round = 0; round < 30; round++) {
        for (u32 i = 0; i < 4; i++) fill(&wanted[i], i * 3, number());
        for (u32 n = 0; n < NODES; n++)
            for (u32 i = 0; i < 4; i++) found += (u32)has(nodes[n], &wanted[i]);
    }
    return (int)found;
}
#elif PROGRAM == 2
// a hash map with open addresses: put, look up and remove, at three quarters of its room
#define ROOM 4096
static u64 keys[ROOM], values[ROOM];
static u8 state[ROOM]; // 0 free, 1 taken, 2 removed
static u32 place(u64 key) {
    key ^= key >> 33;
    key *= 0xff51afd7ed558ccdull;
    key ^= key >> 33;
    return (u32)key % ROOM;
}
static int find(u64 key) {
    for (u32 i = place(key), n = 0; n < ROOM && state[i] != 0; i = (i + 1) % ROOM, n++)
        if (state[i] == 1 && keys[i] == key) return (int)i;
    return -1;
}
static void put(u64 key, u64 value) {
    int at = find(key);
    if (at < 0) {
        u32 i = place(key);
        while (state[i] == 1) i = (i + 1) % ROOM;
        state[i] = 1;
        keys[i] = key;
        at = (int)i;
    }
    values[at] = value;
}
__attribute__((export_name("filter"))) int filter(void) {
    u64 sum = 0;
    for (u32 i = 0; i < ROOM * 3 / 4; i++) put(number() % 8192, i);
    for (u32 i = 0; i < 60000; i++) {
        u64 key = number() % 8192;
        int at = find(key);
        if (at >= 0) {
            sum += values[at];
            if (i % 8 == 0) state[at] = 2;
        } else if (i % 8 == 4) {
            put(key, i);
        }
    }
    return (int)(sum ^ sum >> 32);
}
#elif PROGRAM == 3
// a small parser: sums, products, quotients, parentheses and numbers, by recursive descent over a
// text that is made first
static u8 text[1 << 15];
static u32 length, at;
static void write(u32 depth) {
    if (depth == 0 || number() % 4 == 0) {
        u32 n = number() % 100000;
        u8 digits[8];
        u32 count = 0;
        do digits[count++] = (u8)('0' + n % 10), n /= 10;
        while (n != 0);
        while (count > 0) text[length++] = digits[--count];
        return;
    }
    text[length++] = '(';
    write(depth - 1);
    text[length++] = (u8) "+-*/"[number() % 4];
    if (number() % 2 == 0) text[length++] = ' ';
    write(depth - 1);
    text[length++] = ')';
}
static u32 sum(void);
static void skip(void) {
    while (text[at] == ' ') at++;
}
static u32 atom(void) {
    skip();
    if (text[at] == '(') {
        at++;
        u32 n = sum();
        skip();
        at++;
        return n;
    }
    u32 n = 0;
    while (text[at] >= '0' && text[at] <= '9') n = n * 10 + (text[at++] - '0');
    return n;
}
static u32 product(void) {
    u32 n = atom();
    for (;;) {
        skip();
        if (text[at] == '*') at++, n *= atom();
        else if (text[at] == '/') {
            at++;
            u32 by = atom();
            n = by == 0 ? n : n / by;
        } else return n;
    }
}
static u32 sum(void) {
    u32 n = product();
    for (;;) {
        skip();
        if (text[at] == '+') at++, n += product();
        else if (text[at] == '-') at++, n -= product();
        else return n;
    }
}
__attribute__((export_name("filter"))) int filter(void) {
    u32 all = 0;
    for (u32 i = 0; i < 40; i++) {
        length = 0;
        write(9);
        text[length] = 0;
        for (u32 round = 0; round < 64; round++) at = 0, all = all * 31 + sum();
    }
    return (int)all;
}
#elif PROGRAM == 4
// dynamic programming: the least number of changes between two texts, and the longest part that
// they have in common
#define LONG 700
static u8 first[LONG], second[LONG];
static u32 changes[LONG + 1], common[LONG + 1];
static inline u32 less(u32 a, u32 b) { return a < b ? a : b; }
static inline u32 more(u32 a, u32 b) { return a < b ? b : a; }
__attribute__((export_name("filter"))) int filter(void) {
    for (u32 i = 0; i < LONG; i++) first[i] = (u8)(number() % 4), second[i] = (u8)(number() % 4);
    for (u32 j = 0; j <= LONG; j++) changes[j] = j, common[j] = 0;
    for (u32 i = 1; i <= LONG; i++) {
        u32 diagonal = changes[0], shared = 0;
        changes[0] = i;
        for (u32 j = 1; j <= LONG; j++) {
            u32 up = changes[j], above = common[j];
            int alike = first[i - 1] == second[j - 1];
            changes[j] = alike ? diagonal : 1 + less(diagonal, less(up, changes[j - 1]));
            common[j] = alike ? shared + 1 : more(above, common[j - 1]);
            diagonal = up;
            shared = above;
        }
    }
    return (int)(changes[LONG] * 1000 + common[LONG]);
}
#else
// a treap: a search tree whose order is by key and whose heap is by random weights; put, remove and
// count what is less
#define ROOM 20000
typedef struct { u64 key; u32 weight, count, left, right; } node;
static node nodes[ROOM + 1]; // 0 stands for none
static u32 used;
static void renew(u32 n) { nodes[n].count = 1 + nodes[nodes[n].left].count + nodes[nodes[n].right].count; }
static u32 join(u32 a, u32 b) {
    if (a == 0) return b;
    if (b == 0) return a;
    if (nodes[a].weight > nodes[b].weight) {
        nodes[a].right = join(nodes[a].right, b);
        renew(a);
        return a;
    }
    nodes[b].left = join(a, nodes[b].left);
    renew(b);
    return b;
}
// those below the key, and the others
static void split(u32 n, u64 key, u32 *below, u32 *others) {
    if (n == 0) {
        *below = *others = 0;
    } else if (nodes[n].key < key) {
        split(nodes[n].right, key, &nodes[n].right, others);
        *below = n;
        renew(n);
    } else {
        split(nodes[n].left, key, below, &nodes[n].left);
        *others = n;
        renew(n);
    }
}
__attribute__((export_name("filter"))) int filter(void) {
    u32 root = 0, a, b, c;
    u64 sum = 0;
    for (u32 i = 0; i < ROOM; i++) {
        u64 key = (u64)number() * 0x9E3779B185EBCA87ull;
        split(root, key, &a, &b);
        sum += nodes[a].count;
        u32 n = ++used;
        nodes[n].key = key;
        nodes[n].weight = number();
        nodes[n].count = 1;
        root = join(join(a, n), b);
        if (i % 4 == 3) {
            split(root, key, &a, &b);
            split(b, key + 1, &b, &c);
            root = join(a, c);
        }
    }
    return (int)(sum ^ sum >> 32 ^ nodes[root].count);
}
#endif
