// SPDX-License-Identifier: Apache-2.0
// Eight programs for the benchmark of the machine, one for each value of PROGRAM. Each is a module
// with one export, `filter`.
typedef unsigned char u8;
typedef unsigned int u32;
typedef unsigned long long u64;

#if PROGRAM == 1
// an arithmetic loop
__attribute__((export_name("filter"))) int filter(void) {
    u32 x = 1, y = 0;
    for (u32 i = 0; i < 10000000; i++) {
        x = x * 1664525u + 1013904223u;
        y += x >> 16;
    }
    return (int)y;
}
#elif PROGRAM == 2
// calls
__attribute__((noinline)) static u32 fib(u32 n) { return n < 2 ? n : fib(n - 1) + fib(n - 2); }
__attribute__((export_name("filter"))) int filter(void) { return (int)fib(30); }
#elif PROGRAM == 3
// bytes of memory: a sieve
static u8 composite[1 << 20];
__attribute__((export_name("filter"))) int filter(void) {
    u32 found = 0;
    for (u32 round = 0; round < 3; round++) {
        for (u32 i = 0; i < sizeof composite; i++) composite[i] = 0;
        found = 0;
        for (u32 i = 2; i < sizeof composite; i++) {
            if (composite[i]) continue;
            found++;
            for (u32 j = i + i; j < sizeof composite; j += i) composite[j] = 1;
        }
    }
    return (int)found;
}
#elif PROGRAM == 4
// words and shifts: the compression of SHA-256 (FIPS 180-4, 6.2) over blocks of one pattern
static const u32 K[64] = {
    0x428a2f98, 0x71374491, 0xb5c0fbcf, 0xe9b5dba5, 0x3956c25b, 0x59f111f1, 0x923f82a4, 0xab1c5ed5, 0xd807aa98, 0x12835b01, 0x243185be,
    0x550c7dc3, 0x72be5d74, 0x80deb1fe, 0x9bdc06a7, 0xc19bf174, 0xe49b69c1, 0xefbe4786, 0x0fc19dc6, 0x240ca1cc, 0x2de92c6f, 0x4a7484aa,
    0x5cb0a9dc, 0x76f988da, 0x983e5152, 0xa831c66d, 0xb00327c8, 0xbf597fc7, 0xc6e00bf3, 0xd5a79147, 0x06ca6351, 0x14292967, 0x27b70a85,
    0x2e1b2138, 0x4d2c6dfc, 0x53380d13, 0x650a7354, 0x766a0abb, 0x81c2c92e, 0x92722c85, 0xa2bfe8a1, 0xa81a664b, 0xc24b8b70, 0xc76c51a3,
    0xd192e819, 0xd6990624, 0xf40e3585, 0x106aa070, 0x19a4c116, 0x1e376c08, 0x2748774c, 0x34b0bcb5, 0x391c0cb3, 0x4ed8aa4a, 0x5b9cca4f,
    0x682e6ff3, 0x748f82ee, 0x78a5636f, 0x84c87814, 0x8cc70208, 0x90befffa, 0xa4506ceb, 0xbef9a3f7, 0xc67178f2};
static u32 w[64], h[8];
static inline u32 turn(u32 x, u32 n) { return x >> n | x << (32 - n); }
__attribute__((export_name("filter"))) int filter(void) {
    for (u32 i = 0; i < 8; i++) h[i] = K[i];
    for (u32 block = 0; block < 5000; block++) {
        for (u32 i = 0; i < 16; i++) w[i] = block * 16 + i;
        for (u32 i = 16; i < 64; i++) {
            u32 a = turn(w[i - 15], 7) ^ turn(w[i - 15], 18) ^ w[i - 15] >> 3;
            u32 b = turn(w[i - 2], 17) ^ turn(w[i - 2], 19) ^ w[i - 2] >> 10;
            w[i] = w[i - 16] + a + w[i - 7] + b;
        }
        u32 s[8];
        for (u32 i = 0; i < 8; i++) s[i] = h[i];
        for (u32 i = 0; i < 64; i++) {
            u32 t1 = s[7] + (turn(s[4], 6) ^ turn(s[4], 11) ^ turn(s[4], 25)) + ((s[4] & s[5]) ^ (~s[4] & s[6])) + K[i] + w[i];
            u32 t2 = (turn(s[0], 2) ^ turn(s[0], 13) ^ turn(s[0], 22)) + ((s[0] & s[1]) ^ (s[0] & s[2]) ^ (s[1] & s[2]));
            s[7] = s[6]; s[6] = s[5]; s[5] = s[4]; s[4] = s[3] + t1; s[3] = s[2]; s[2] = s[1]; s[1] = s[0]; s[0] = t1 + t2;
        }
        for (u32 i = 0; i < 8; i++) h[i] += s[i];
    }
    return (int)h[0];
}
#elif PROGRAM == 5
// a heap sort of words
static u32 numbers[1 << 17];
static void sift(u32 root, u32 count) {
    for (;;) {
        u32 child = 2 * root + 1;
        if (child >= count) return;
        if (child + 1 < count && numbers[child] < numbers[child + 1]) child++;
        if (numbers[root] >= numbers[child]) return;
        u32 t = numbers[root]; numbers[root] = numbers[child]; numbers[child] = t;
        root = child;
    }
}
__attribute__((export_name("filter"))) int filter(void) {
    u32 count = sizeof numbers / sizeof numbers[0], x = 1;
    for (u32 i = 0; i < count; i++) numbers[i] = x = x * 1664525u + 1013904223u;
    for (u32 i = count / 2; i > 0; i--) sift(i - 1, count);
    for (u32 i = count; i > 1; i--) {
        u32 t = numbers[0]; numbers[0] = numbers[i - 1]; numbers[i - 1] = t;
        sift(0, i - 1);
    }
    return (int)numbers[77];
}
#elif PROGRAM == 6
// words of 64 bits: a hash of words by multiplying and turning them
static u64 words[4096];
static inline u64 turn(u64 x, u32 n) { return x << n | x >> (64 - n); }
__attribute__((export_name("filter"))) int filter(void) {
    u64 x = 1, a = 0x9E3779B185EBCA87ull, b = 0xC2B2AE3D27D4EB4Full;
    for (u32 i = 0; i < 4096; i++) words[i] = x = x * 6364136223846793005ull + 1442695040888963407ull;
    for (u32 round = 0; round < 500; round++)
        for (u32 i = 0; i < 4096; i += 2) {
            a = turn(a + words[i] * 0xC2B2AE3D27D4EB4Full, 31) * 0x9E3779B185EBCA87ull;
            b = turn(b ^ (words[i + 1] >> 29), 27) * 0x9E3779B185EBCA87ull + 0x85EBCA77C2B2AE63ull;
            if (a > b) b -= a & 0xFFFF;
        }
    return (int)(a ^ b >> 32);
}
#elif PROGRAM == 7
// a switch: a br_table chooses each of eight operations, in an order that data tells
static u8 order[256];
static inline u32 turn(u32 x, u32 n) { return x << n | x >> (32 - n); }
__attribute__((export_name("filter"))) int filter(void) {
    u32 x = 1, a = 1, b = 2;
    for (u32 i = 0; i < sizeof order; i++) order[i] = (x = x * 1664525u + 1013904223u) >> 29;
    for (u32 i = 0; i < 3000000; i++) {
        switch (order[i % sizeof order]) {
        case 0: a += b; break;
        case 1: b ^= a >> 5; break;
        case 2: a = turn(a, 7); break;
        case 3: b -= 0x9e3779b9; break;
        case 4: a *= 5; break;
        case 5: b = turn(b, 13) + a; break;
        case 6: a ^= i; break;
        default: b *= a | 1; break;
        }
    }
    return (int)(a ^ b);
}
#else
// calls through a table: of one of eight functions, in an order that data tells
static u8 order[256];
#define STEP(name, expression) __attribute__((noinline)) static u32 name(u32 a, u32 b) { return expression; }
STEP(sum, a + b)
STEP(difference, a - b)
STEP(product, a * (b | 1))
STEP(exclusive, a ^ b >> 5)
STEP(both, (a & b) + 1)
STEP(turned, a << 7 | b >> 25)
STEP(halved, (a >> 1) + b)
STEP(mixed, a * 5 + b)
static u32 (*volatile const steps[8])(u32, u32) = {sum, difference, product, exclusive, both, turned, halved, mixed};
__attribute__((export_name("filter"))) int filter(void) {
    u32 x = 1, a = 1;
    for (u32 i = 0; i < sizeof order; i++) order[i] = (x = x * 1664525u + 1013904223u) >> 29;
    for (u32 i = 0; i < 2000000; i++) a = steps[order[i % sizeof order]](a, i);
    return (int)a;
}
#endif
