// The hash and the log in plain C, written from the published documents and from docs/FORMATS.md: the yardstick for digests and speed.
//
//   reference vectors            checks the ciphers against their published vectors
//   reference hash MODE MESSAGE  prints a digest; MESSAGE is hexadecimal, HEX*COUNT, or - for no bytes
//   reference speed [N [M]]      the work of the program `speed`: digests to standard output, times to standard error
//   reference edges              the digests that the program `edges` prints for each size
#define _POSIX_C_SOURCE 199309L
#include <stdint.h>
#include <stdio.h>
#include <stdlib.h>
#include <string.h>
#include <time.h>

enum { BLOCK = 16, LONGEST = 1048576 };

// ---- AES-128: FIPS 197, a state of bytes

static const uint8_t sbox[256] = {
    0x63, 0x7c, 0x77, 0x7b, 0xf2, 0x6b, 0x6f, 0xc5, 0x30, 0x01, 0x67, 0x2b, 0xfe, 0xd7, 0xab, 0x76,
    0xca, 0x82, 0xc9, 0x7d, 0xfa, 0x59, 0x47, 0xf0, 0xad, 0xd4, 0xa2, 0xaf, 0x9c, 0xa4, 0x72, 0xc0,
    0xb7, 0xfd, 0x93, 0x26, 0x36, 0x3f, 0xf7, 0xcc, 0x34, 0xa5, 0xe5, 0xf1, 0x71, 0xd8, 0x31, 0x15,
    0x04, 0xc7, 0x23, 0xc3, 0x18, 0x96, 0x05, 0x9a, 0x07, 0x12, 0x80, 0xe2, 0xeb, 0x27, 0xb2, 0x75,
    0x09, 0x83, 0x2c, 0x1a, 0x1b, 0x6e, 0x5a, 0xa0, 0x52, 0x3b, 0xd6, 0xb3, 0x29, 0xe3, 0x2f, 0x84,
    0x53, 0xd1, 0x00, 0xed, 0x20, 0xfc, 0xb1, 0x5b, 0x6a, 0xcb, 0xbe, 0x39, 0x4a, 0x4c, 0x58, 0xcf,
    0xd0, 0xef, 0xaa, 0xfb, 0x43, 0x4d, 0x33, 0x85, 0x45, 0xf9, 0x02, 0x7f, 0x50, 0x3c, 0x9f, 0xa8,
    0x51, 0xa3, 0x40, 0x8f, 0x92, 0x9d, 0x38, 0xf5, 0xbc, 0xb6, 0xda, 0x21, 0x10, 0xff, 0xf3, 0xd2,
    0xcd, 0x0c, 0x13, 0xec, 0x5f, 0x97, 0x44, 0x17, 0xc4, 0xa7, 0x7e, 0x3d, 0x64, 0x5d, 0x19, 0x73,
    0x60, 0x81, 0x4f, 0xdc, 0x22, 0x2a, 0x90, 0x88, 0x46, 0xee, 0xb8, 0x14, 0xde, 0x5e, 0x0b, 0xdb,
    0xe0, 0x32, 0x3a, 0x0a, 0x49, 0x06, 0x24, 0x5c, 0xc2, 0xd3, 0xac, 0x62, 0x91, 0x95, 0xe4, 0x79,
    0xe7, 0xc8, 0x37, 0x6d, 0x8d, 0xd5, 0x4e, 0xa9, 0x6c, 0x56, 0xf4, 0xea, 0x65, 0x7a, 0xae, 0x08,
    0xba, 0x78, 0x25, 0x2e, 0x1c, 0xa6, 0xb4, 0xc6, 0xe8, 0xdd, 0x74, 0x1f, 0x4b, 0xbd, 0x8b, 0x8a,
    0x70, 0x3e, 0xb5, 0x66, 0x48, 0x03, 0xf6, 0x0e, 0x61, 0x35, 0x57, 0xb9, 0x86, 0xc1, 0x1d, 0x9e,
    0xe1, 0xf8, 0x98, 0x11, 0x69, 0xd9, 0x8e, 0x94, 0x9b, 0x1e, 0x87, 0xe9, 0xce, 0x55, 0x28, 0xdf,
    0x8c, 0xa1, 0x89, 0x0d, 0xbf, 0xe6, 0x42, 0x68, 0x41, 0x99, 0x2d, 0x0f, 0xb0, 0x54, 0xbb, 0x16,
};

static inline uint8_t xtime(uint8_t b) {
    return (uint8_t)((b << 1) ^ ((b >> 7) * 0x1b));
}

static inline void expand_key(const uint8_t key[BLOCK], uint8_t w[176]) {
    uint8_t rcon = 1;
    memcpy(w, key, BLOCK);
    for (int i = 16; i < 176; i += 4) {
        uint8_t t[4];
        memcpy(t, w + i - 4, 4);
        if (i % 16 == 0) {
            uint8_t first = t[0];
            t[0] = sbox[t[1]] ^ rcon;
            t[1] = sbox[t[2]];
            t[2] = sbox[t[3]];
            t[3] = sbox[first];
            rcon = xtime(rcon);
        }
        for (int k = 0; k < 4; k++) {
            w[i + k] = w[i + k - 16] ^ t[k];
        }
    }
}

static inline void add_round_key(uint8_t s[BLOCK], const uint8_t *w) {
    for (int i = 0; i < BLOCK; i++) {
        s[i] ^= w[i];
    }
}

static inline void sub_bytes_shift_rows(uint8_t s[BLOCK]) {
    uint8_t t[BLOCK];
    for (int column = 0; column < 4; column++) {
        for (int row = 0; row < 4; row++) {
            t[4 * column + row] = sbox[s[4 * ((column + row) % 4) + row]];
        }
    }
    memcpy(s, t, BLOCK);
}

static inline void mix_columns(uint8_t s[BLOCK]) {
    for (int column = 0; column < 4; column++) {
        uint8_t *c = s + 4 * column;
        uint8_t a0 = c[0], a1 = c[1], a2 = c[2], a3 = c[3];
        uint8_t all = a0 ^ a1 ^ a2 ^ a3;
        c[0] ^= all ^ xtime(a0 ^ a1);
        c[1] ^= all ^ xtime(a1 ^ a2);
        c[2] ^= all ^ xtime(a2 ^ a3);
        c[3] ^= all ^ xtime(a3 ^ a0);
    }
}

static inline void aes128(const uint8_t key[BLOCK], const uint8_t block[BLOCK], uint8_t out[BLOCK]) {
    uint8_t w[176];
    expand_key(key, w);
    memcpy(out, block, BLOCK);
    add_round_key(out, w);
    for (int round = 1; round < 10; round++) {
        sub_bytes_shift_rows(out);
        mix_columns(out);
        add_round_key(out, w + 16 * round);
    }
    sub_bytes_shift_rows(out);
    add_round_key(out, w + 160);
}

// ---- Speck128/128: two words of 64 bits, each with its lowest byte first

static inline uint64_t load64(const uint8_t *p) {
    uint64_t w = 0;
    for (int i = 7; i >= 0; i--) {
        w = w << 8 | p[i];
    }
    return w;
}

static inline void store64(uint8_t *p, uint64_t w) {
    for (int i = 0; i < 8; i++) {
        p[i] = (uint8_t)(w >> 8 * i);
    }
}

static inline uint64_t ror64(uint64_t w, int n) {
    return w >> n | w << (64 - n);
}

static inline uint64_t rol64(uint64_t w, int n) {
    return w << n | w >> (64 - n);
}

static inline void speck128(const uint8_t key[BLOCK], const uint8_t block[BLOCK], uint8_t out[BLOCK]) {
    uint64_t k = load64(key), l = load64(key + 8);
    uint64_t y = load64(block), x = load64(block + 8);
    for (uint64_t i = 0; i < 32; i++) {
        x = (ror64(x, 8) + y) ^ k;
        y = rol64(y, 3) ^ x;
        l = (k + ror64(l, 8)) ^ i;
        k = rol64(k, 3) ^ l;
    }
    store64(out, y);
    store64(out + 8, x);
}

// ---- The compressions f(h, m), and a hash function for each

static inline void xor_into(uint8_t out[BLOCK], const uint8_t in[BLOCK]) {
    for (int i = 0; i < BLOCK; i++) {
        out[i] ^= in[i];
    }
}

#define MODES(name, encrypt)                                                                        \
    static inline void dm_##name(uint8_t h[BLOCK], const uint8_t m[BLOCK]) {                        \
        uint8_t out[BLOCK];                                                                         \
        encrypt(m, h, out);                                                                         \
        xor_into(h, out);                                                                           \
    }                                                                                               \
    static inline void mmo_##name(uint8_t h[BLOCK], const uint8_t m[BLOCK]) {                       \
        uint8_t out[BLOCK];                                                                         \
        encrypt(h, m, out);                                                                         \
        memcpy(h, m, BLOCK);                                                                        \
        xor_into(h, out);                                                                           \
    }                                                                                               \
    static inline void mp_##name(uint8_t h[BLOCK], const uint8_t m[BLOCK]) {                        \
        uint8_t out[BLOCK];                                                                         \
        encrypt(h, m, out);                                                                         \
        xor_into(h, m);                                                                             \
        xor_into(h, out);                                                                           \
    }

MODES(aes, aes128)
MODES(speck, speck128)

static inline void fold(uint8_t h[BLOCK], const uint8_t m[BLOCK]) {
    xor_into(h, m);
}

// The message, byte 80, the fewest bytes 00 that make the length 8 modulo 16, and the message's length as 8 bytes.
#define HASH(compress)                                                                              \
    static void hash_##compress(const uint8_t *message, size_t length, uint8_t h[BLOCK]) {          \
        uint8_t tail[2 * BLOCK] = {0};                                                              \
        size_t whole = length / BLOCK * BLOCK;                                                      \
        size_t end = length - whole + 9 <= BLOCK ? BLOCK : 2 * BLOCK;                               \
        memset(h, 0, BLOCK);                                                                        \
        for (size_t i = 0; i < whole; i += BLOCK) {                                                 \
            compress(h, message + i);                                                               \
        }                                                                                           \
        memcpy(tail, message + whole, length - whole);                                              \
        tail[length - whole] = 0x80;                                                                \
        store64(tail + end - 8, length);                                                            \
        for (size_t i = 0; i < end; i += BLOCK) {                                                   \
            compress(h, tail + i);                                                                  \
        }                                                                                           \
    }

HASH(fold)
HASH(dm_aes)
HASH(mmo_aes)
HASH(mp_aes)
HASH(dm_speck)
HASH(mmo_speck)
HASH(mp_speck)

struct mode {
    const char *name;
    void (*hash)(const uint8_t *message, size_t length, uint8_t h[BLOCK]);
};

static const struct mode modes[] = {
    {"fold", hash_fold},
    {"dm-aes", hash_dm_aes},
    {"mmo-aes", hash_mmo_aes},
    {"mp-aes", hash_mp_aes},
    {"dm-speck", hash_dm_speck},
    {"mmo-speck", hash_mmo_speck},
    {"mp-speck", hash_mp_speck},
};

enum { MODE_COUNT = sizeof modes / sizeof modes[0], FIRST_CIPHER_MODE = 1 };

// ---- The tree of RFC 6962, and the log's records, under Davies-Meyer over Speck128/128

enum { LARGEST = 1048576, ENTRY = 4096, RECORD = 512, KIND_HEAD = 2, KIND_PROOF = 3, KIND_LINK = 4, KIND_ENTRY = 5 };

struct digest {
    uint8_t bytes[BLOCK];
};

static struct digest leaf_digest(const uint8_t *entry, size_t length) {
    uint8_t message[1 + ENTRY];
    struct digest d;
    message[0] = 0;
    memcpy(message + 1, entry, length);
    hash_dm_speck(message, 1 + length, d.bytes);
    return d;
}

static struct digest node_digest(struct digest left, struct digest right) {
    uint8_t message[1 + 2 * BLOCK];
    struct digest d;
    message[0] = 1;
    memcpy(message + 1, left.bytes, BLOCK);
    memcpy(message + 1 + BLOCK, right.bytes, BLOCK);
    hash_dm_speck(message, sizeof message, d.bytes);
    return d;
}

// The largest power of two below n, for n > 1.
static size_t split(size_t n) {
    size_t k = 1;
    while (2 * k < n) {
        k *= 2;
    }
    return k;
}

static struct digest root(const struct digest *leaves, size_t n) {
    if (n == 1) {
        return leaves[0];
    }
    size_t k = split(n);
    return node_digest(root(leaves, k), root(leaves + k, n - k));
}

// Writes the path of leaf i among n, and returns how many digests it has.
static size_t path(const struct digest *leaves, size_t i, size_t n, struct digest *out) {
    if (n == 1) {
        return 0;
    }
    size_t k = split(n), length;
    if (i < k) {
        length = path(leaves, i, k, out);
        out[length] = root(leaves + k, n - k);
    } else {
        length = path(leaves + k, i - k, n - k, out);
        out[length] = root(leaves, k);
    }
    return length + 1;
}

// Writes the link from m leaves to n, and returns how many digests it has; `mark` says that the first m are all of a tree.
static size_t link_digests(const struct digest *leaves, size_t m, size_t n, int mark, struct digest *out) {
    if (m == n) {
        if (mark) {
            return 0;
        }
        out[0] = root(leaves, n);
        return 1;
    }
    size_t k = split(n), length;
    if (m <= k) {
        length = link_digests(leaves, m, k, mark, out);
        out[length] = root(leaves + k, n - k);
    } else {
        length = link_digests(leaves + k, m - k, n - k, 0, out);
        out[length] = root(leaves, k);
    }
    return length + 1;
}

static void store_number(uint8_t *p, size_t number, int bytes) {
    for (int i = 0; i < bytes; i++) {
        p[i] = (uint8_t)(number >> 8 * i);
    }
}

// Writes what stands before a payload, and returns the record's length.
static size_t write_header(uint8_t *out, int kind, size_t payload) {
    store_number(out, payload, 2);
    store_number(out + 2, (size_t)kind, 2);
    return 4 + payload;
}

struct log {
    struct digest *leaves;
    size_t count;
    uint8_t *file;
    size_t used;
};

static void append(struct log *log, const uint8_t *entry, size_t length) {
    log->leaves[log->count++] = leaf_digest(entry, length);
    memcpy(log->file + log->used + 4, entry, length);
    log->used += write_header(log->file + log->used, KIND_ENTRY, length);
}

static size_t write_head(const struct log *log, size_t n, uint8_t *out) {
    struct digest d = root(log->leaves, n);
    store_number(out + 4, n, 4);
    memcpy(out + 8, d.bytes, BLOCK);
    return write_header(out, KIND_HEAD, 4 + BLOCK);
}

// A proof or a link: two numbers and the digests.
static size_t write_digests(uint8_t *out, int kind, size_t a, size_t b, const struct digest *digests, size_t length) {
    store_number(out + 4, a, 4);
    store_number(out + 8, b, 4);
    memcpy(out + 12, digests, length * BLOCK);
    return write_header(out, kind, 8 + length * BLOCK);
}

static size_t write_proof(const struct log *log, size_t i, size_t n, uint8_t *out) {
    struct digest digests[20];
    return write_digests(out, KIND_PROOF, i, n, digests, path(log->leaves, i, n, digests));
}

static size_t write_link(const struct log *log, size_t m, size_t n, uint8_t *out) {
    struct digest digests[21];
    return write_digests(out, KIND_LINK, m, n, digests, link_digests(log->leaves, m, n, 1, digests));
}

// ---- Commands

static int fail(const char *why) {
    fprintf(stderr, "reference: %s\n", why);
    return 1;
}

static void print_hex(const uint8_t *bytes, size_t length) {
    for (size_t i = 0; i < length; i++) {
        printf("%02x", bytes[i]);
    }
    printf("\n");
}

struct vector {
    const char *name;
    void (*encrypt)(const uint8_t key[BLOCK], const uint8_t block[BLOCK], uint8_t out[BLOCK]);
    uint8_t key[BLOCK], block[BLOCK], out[BLOCK];
};

static const struct vector vectors[] = {
    {"FIPS 197 appendix B", aes128,
     {0x2b, 0x7e, 0x15, 0x16, 0x28, 0xae, 0xd2, 0xa6, 0xab, 0xf7, 0x15, 0x88, 0x09, 0xcf, 0x4f, 0x3c},
     {0x32, 0x43, 0xf6, 0xa8, 0x88, 0x5a, 0x30, 0x8d, 0x31, 0x31, 0x98, 0xa2, 0xe0, 0x37, 0x07, 0x34},
     {0x39, 0x25, 0x84, 0x1d, 0x02, 0xdc, 0x09, 0xfb, 0xdc, 0x11, 0x85, 0x97, 0x19, 0x6a, 0x0b, 0x32}},
    {"FIPS 197 appendix C.1", aes128,
     {0x00, 0x01, 0x02, 0x03, 0x04, 0x05, 0x06, 0x07, 0x08, 0x09, 0x0a, 0x0b, 0x0c, 0x0d, 0x0e, 0x0f},
     {0x00, 0x11, 0x22, 0x33, 0x44, 0x55, 0x66, 0x77, 0x88, 0x99, 0xaa, 0xbb, 0xcc, 0xdd, 0xee, 0xff},
     {0x69, 0xc4, 0xe0, 0xd8, 0x6a, 0x7b, 0x04, 0x30, 0xd8, 0xcd, 0xb7, 0x80, 0x70, 0xb4, 0xc5, 0x5a}},
    // words x y: 6c61766975716520 7469206564616d20 to a65d985179783265 7860fedf5c570d18
    {"Speck128/128 of the Speck paper", speck128,
     {0x00, 0x01, 0x02, 0x03, 0x04, 0x05, 0x06, 0x07, 0x08, 0x09, 0x0a, 0x0b, 0x0c, 0x0d, 0x0e, 0x0f},
     {0x20, 0x6d, 0x61, 0x64, 0x65, 0x20, 0x69, 0x74, 0x20, 0x65, 0x71, 0x75, 0x69, 0x76, 0x61, 0x6c},
     {0x18, 0x0d, 0x57, 0x5c, 0xdf, 0xfe, 0x60, 0x78, 0x65, 0x32, 0x78, 0x79, 0x51, 0x98, 0x5d, 0xa6}},
};

static int check_vectors(void) {
    int wrong = 0;
    for (size_t i = 0; i < sizeof vectors / sizeof vectors[0]; i++) {
        uint8_t out[BLOCK];
        vectors[i].encrypt(vectors[i].key, vectors[i].block, out);
        int same = memcmp(out, vectors[i].out, BLOCK) == 0;
        printf("%s: %s\n", vectors[i].name, same ? "ok" : "WRONG");
        wrong |= !same;
    }
    return wrong;
}

// Reads hexadecimal, HEX*COUNT or - into `message`, and returns its length, or -1.
static long read_message(const char *text, uint8_t *message) {
    size_t digits = strcspn(text, "*"), unit = digits / 2;
    unsigned long times = text[digits] ? strtoul(text + digits + 1, NULL, 10) : 1;
    if (strcmp(text, "-") == 0) {
        return 0;
    }
    if (digits == 0 || digits % 2 != 0 || times > LONGEST / unit) {
        return -1;
    }
    for (size_t i = 0; i < unit; i++) {
        unsigned byte;
        if (sscanf(text + 2 * i, "%2x", &byte) != 1) {
            return -1;
        }
        for (size_t k = 0; k < times; k++) {
            message[k * unit + i] = (uint8_t)byte;
        }
    }
    return (long)(unit * times);
}

static int print_hash(const char *name, const char *text) {
    static uint8_t message[LONGEST];
    uint8_t h[BLOCK];
    long length = read_message(text, message);
    if (length < 0) {
        return fail("bad message");
    }
    for (int i = 0; i < MODE_COUNT; i++) {
        if (strcmp(modes[i].name, name) == 0) {
            modes[i].hash(message, (size_t)length, h);
            print_hex(h, BLOCK);
            return 0;
        }
    }
    return fail("unknown mode");
}

static long long now_micros(void) {
    struct timespec t;
    clock_gettime(CLOCK_MONOTONIC, &t);
    return t.tv_sec * 1000000LL + t.tv_nsec / 1000;
}

static void report(const char *name, size_t size, long times, long long took, const uint8_t digest[BLOCK]) {
    fprintf(stderr, "%s %zu %ld %lld\n", name, size, times, took);
    printf("%s %zu ", name, size);
    print_hex(digest, BLOCK);
}

// Hashes a message `times` times, and writes each digest over the front of the message.
static void run_chain(const struct mode *mode, uint8_t *message, size_t length, long times) {
    uint8_t h[BLOCK];
    memset(message, 0, length);
    long long start = now_micros();
    for (long i = 0; i < times; i++) {
        mode->hash(message, length, h);
        memcpy(message, h, BLOCK);
    }
    long long took = now_micros() - start;
    report(mode->name, length, times, took, message);
}

enum { SHORT_ENTRY = 39 };

// Entry i: its number in 4 bytes, and zeros.
static void fill(struct log *log, size_t n) {
    uint8_t entry[SHORT_ENTRY] = {0};
    log->count = log->used = 0;
    for (size_t i = 0; i < n; i++) {
        store_number(entry, i, 4);
        append(log, entry, SHORT_ENTRY);
    }
}

static size_t answer(const struct log *log, int kind, size_t at, size_t n, uint8_t *out) {
    switch (kind) {
    case KIND_HEAD:
        return write_head(log, n, out);
    case KIND_PROOF:
        return write_proof(log, at, n, out);
    default:
        return write_link(log, at + 1, n, out);
    }
}

// Takes a record into the digest before it.
static void take_in(uint8_t seen[BLOCK + RECORD], size_t length) {
    uint8_t h[BLOCK];
    hash_dm_speck(seen, BLOCK + length, h);
    memcpy(seen, h, BLOCK);
}

// Asks for a record `times` times, each about another leaf.
static void run_calls(const struct log *log, const char *name, int kind, size_t n, long times) {
    uint8_t seen[BLOCK + RECORD] = {0};
    long long start = now_micros();
    for (long turn = 0; turn < times; turn++) {
        size_t at = (n / 3 + (size_t)turn * 7919) % n;
        take_in(seen, answer(log, kind, at, n, seen + BLOCK));
    }
    report(name, n, times, now_micros() - start, seen);
}

// Appends, heads, proofs and links at three sizes, each of about a million leaves in all.
static int run_log(long m) {
    static const struct {
        size_t leaves;
        long turns;
    } sizes[] = {{1000, 1000}, {30000, 33}, {1000000, 1}};
    struct log log = {calloc(1000000, sizeof *log.leaves), 0, calloc(1000000, 4 + SHORT_ENTRY), 0};
    if (!log.leaves || !log.file) {
        return fail("no memory");
    }
    for (int i = 0; i < 3; i++) {
        size_t n = sizes[i].leaves;
        long times = sizes[i].turns * m;
        uint8_t h[BLOCK];
        long long start = now_micros();
        for (long turn = 0; turn < times; turn++) {
            fill(&log, n);
        }
        long long took = now_micros() - start;
        hash_dm_speck(log.file, log.used, h);
        report("append", n, times, took, h);
        run_calls(&log, "head", KIND_HEAD, n, times);
        run_calls(&log, "prove", KIND_PROOF, n, times);
        run_calls(&log, "link", KIND_LINK, n, times);
    }
    free(log.leaves);
    free(log.file);
    return 0;
}

static int run_speed(long n, long m) {
    uint8_t *message = malloc(LONGEST);
    if (!message || n < 1 || m < 1) {
        return fail("no memory, or a bad count");
    }
    for (int i = FIRST_CIPHER_MODE; i < MODE_COUNT; i++) {
        run_chain(&modes[i], message, LONGEST, n);
        run_chain(&modes[i], message, 33, 10000 * n);
        run_chain(&modes[i], message, 40, 10000 * n);
    }
    free(message);
    return run_log(m);
}

// A digest over the head of a size, the proofs of its first and last leaf, and the links from half of it and from one leaf less.
static void print_size(const struct log *log, size_t n) {
    uint8_t seen[BLOCK + RECORD] = {0}, *out = seen + BLOCK;
    take_in(seen, write_head(log, n, out));
    take_in(seen, write_proof(log, 0, n, out));
    take_in(seen, write_proof(log, n - 1, n, out));
    take_in(seen, write_link(log, n > 1 ? n / 2 : 1, n, out));
    take_in(seen, write_link(log, n > 1 ? n - 1 : 1, n, out));
    printf("size %zu: ", n);
    print_hex(seen, BLOCK);
}

static int print_edges(void) {
    struct log log = {calloc(LARGEST, sizeof *log.leaves), 0, calloc(LARGEST, 8), 0};
    if (!log.leaves || !log.file) {
        return fail("no memory");
    }
    for (size_t i = 0; i < LARGEST; i++) {
        uint8_t entry[4];
        store_number(entry, i, 4);
        append(&log, entry, 4);
    }
    print_size(&log, 1);
    print_size(&log, 2);
    for (size_t power = 4; power <= LARGEST; power *= 2) {
        print_size(&log, power - 1);
        print_size(&log, power);
        if (power < LARGEST) {
            print_size(&log, power + 1);
        }
    }
    free(log.leaves);
    free(log.file);
    return 0;
}

int main(int argc, char **argv) {
    if (argc == 2 && strcmp(argv[1], "vectors") == 0) {
        return check_vectors();
    }
    if (argc == 4 && strcmp(argv[1], "hash") == 0) {
        return print_hash(argv[2], argv[3]);
    }
    if (argc >= 2 && argc <= 4 && strcmp(argv[1], "speed") == 0) {
        return run_speed(argc > 2 ? atol(argv[2]) : 1, argc > 3 ? atol(argv[3]) : 1);
    }
    if (argc == 2 && strcmp(argv[1], "edges") == 0) {
        return print_edges();
    }
    return fail("usage: reference vectors | hash MODE MESSAGE | speed [N [M]] | edges");
}
