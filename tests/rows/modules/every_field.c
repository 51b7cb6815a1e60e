// SPDX-License-Identifier: Apache-2.0
// A score that reads every field of both records, each by its place and its length, and answers
// them all folded into one number: from 14695981039346656037 on, each number in turn is xored in,
// and the sum so far is multiplied by 1099511628211, modulo 2^64. A text is told as its length and
// then its bytes.
//
// Built with clang 14 and its wasm-ld, which knows the first edition of WebAssembly:
//   clang --target=wasm32 -Oz -nostdlib -mcpu=mvp -Wl,--no-entry -Wl,-z,stack-size=1024
//   -Wl,--strip-all -o every_field.wasm every_field.c

__attribute__((import_module("sched"), import_name("pod")))
unsigned pod(unsigned char *pointer, unsigned limit);

__attribute__((import_module("sched"), import_name("node")))
unsigned node(unsigned char *pointer, unsigned limit);

static unsigned char record[8192];

static const unsigned char *at;

static unsigned long long told;

static void tell(unsigned long long number) {
    told = (told ^ number) * 1099511628211ull;
}

static unsigned long long number(int bytes) {
    unsigned long long value = 0;
    for (int i = bytes; i > 0; i--)
        value = value << 8 | at[i - 1];
    at += bytes;
    return value;
}

static void text(void) {
    unsigned length = number(1);
    tell(length);
    while (length-- > 0)
        tell(number(1));
}

static void labels(void) {
    unsigned count = number(1);
    tell(count);
    while (count-- > 0) {
        text();
        text();
    }
}

static void amounts(void) {
    tell(number(8));
    tell(number(8));
    tell(number(4));
}

__attribute__((export_name("score")))
unsigned long long score(void) {
    told = 14695981039346656037ull;
    tell(pod(record, sizeof record));
    at = record;
    tell(number(1));
    tell(number(1));
    text();
    tell((long long)(int)number(4));
    tell(number(8));
    tell(number(8));
    labels();
    tell(node(record, sizeof record));
    at = record;
    tell(number(1));
    tell(number(1));
    text();
    tell(number(1));
    amounts();
    amounts();
    labels();
    return told;
}
