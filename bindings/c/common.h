/* For both test programs: checks, random numbers from a fixed seed, and DROMs to try. */
#ifndef COMMON_H
#define COMMON_H

#include "drom.h"

#include <inttypes.h>
#include <stdio.h>
#include <stdlib.h>
#include <string.h>

/* What a lent buffer is filled with, so that a byte that is written shows. */
#define LENT 0xa5

#define COUNT_OF(array) (sizeof(array) / sizeof(array)[0])

/* ---- checks ---- */

static unsigned long checks_done;
static unsigned long checks_failed;

static inline void check_true(int holds, const char *file, int line, const char *words) {
    checks_done++;
    if (holds)
        return;
    checks_failed++;
    fprintf(stderr, "%s:%d: expected %s\n", file, line, words);
}

static inline void check_same(uint64_t got, uint64_t expected, const char *file, int line,
                              const char *words) {
    checks_done++;
    if (got == expected)
        return;
    checks_failed++;
    fprintf(stderr, "%s:%d: %s: expected %" PRIu64 ", got %" PRIu64 "\n", file, line, words,
            expected, got);
}

#define CHECK(condition) check_true((condition) != 0, __FILE__, __LINE__, #condition)
#define EXPECT(call, expected) check_same((call), (expected), __FILE__, __LINE__, #call)

static inline int checks_verdict(const char *program) {
    printf("%s: %lu checks, %lu failed\n", program, checks_done, checks_failed);
    return checks_failed == 0 ? EXIT_SUCCESS : EXIT_FAILURE;
}

/* Whether all bytes have the value. */
static inline int all_bytes(const uint8_t *at, size_t count, uint8_t value) {
    return count == 0 || (at[0] == value && memcmp(at, at + 1, count - 1) == 0);
}

static inline int same_bytes(const void *a, const void *b, size_t count) {
    return count == 0 || memcmp(a, b, count) == 0;
}

/* memcpy of nothing may not be given a null pointer. */
static inline void copy_bytes(void *to, const void *from, size_t count) {
    if (count != 0)
        memcpy(to, from, count);
}

static inline void fill_bytes(void *at, uint8_t value, size_t count) {
    if (count != 0)
        memset(at, value, count);
}

/* ---- random numbers ---- */

static uint64_t random_state = UINT64_C(0x9e3779b97f4a7c15);

/* Numbers that do not look like those of another seed. */
static inline void random_seed(uint64_t seed) {
    random_state = (seed + 1) * UINT64_C(0x9e3779b97f4a7c15);
}

static inline uint64_t random_number(void) {
    random_state ^= random_state << 13;
    random_state ^= random_state >> 7;
    random_state ^= random_state << 17;
    return random_state >> 8;
}

static inline size_t random_below(size_t past) {
    return (size_t)(random_number() % past);
}

static inline void random_bytes(uint8_t *at, size_t count) {
    for (size_t i = 0; i < count; i++)
        at[i] = (uint8_t)random_number();
}

/* ---- DROMs ---- */

static inline void put_number(uint8_t *at, size_t width, uint64_t number) {
    for (size_t i = 0; i < width; i++)
        at[i] = (uint8_t)(number >> (8 * i));
}

/* A DROM in memory that is large enough for one byte more than the largest. */
struct dump {
    uint8_t bytes[DROM_LARGEST + 1];
    size_t count;
};

static inline int load_dump(struct dump *dump, const char *path) {
    FILE *file = fopen(path, "rb");
    if (file == NULL) {
        perror(path);
        return 0;
    }
    dump->count = fread(dump->bytes, 1, sizeof dump->bytes, file);
    fclose(file);
    return 1;
}

/* A header of zeros but for version and length, and a body. */
static inline void make_drom(struct dump *dump, uint8_t version, const uint8_t *body,
                             size_t body_count) {
    size_t start = version < 3 ? 22 : 16;
    memset(dump->bytes, 0, start);
    copy_bytes(dump->bytes + start, body, body_count);
    dump->count = start + body_count;
    dump->bytes[13] = version;
    put_number(dump->bytes + 14, 2, dump->count - 13);
}

/* The checksums that the header should have. */
static inline void sign_drom(struct dump *dump) {
    if (dump->bytes[13] < 3)
        dump->bytes[0] = drom_crc8(dump->bytes + 1, 8);
    put_number(dump->bytes + 9, 4, drom_crc32(dump->bytes + 13, dump->count - 13));
}

/* An entry of any kind, of which some are refused. Its length byte is wrong now and then. */
static inline size_t random_entry(uint8_t *at, size_t most) {
    size_t length = 1 + random_below(random_below(8) == 0 ? 255 : 20);
    if (length > most)
        length = most;
    random_bytes(at, length);
    at[0] = random_below(60) == 0 ? at[0] : (uint8_t)length;
    if (length < 2)
        return length;
    at[1] = random_below(2) == 0 ? at[1] | 0x80 : at[1] % 0x14;
    /* A name that is accepted is rare among random bytes. */
    if (at[1] == 1 || at[1] == 2)
        memset(at + 2, random_below(10) == 0 ? 0xc3 : 'n', length - 2);
    at[length - 1] = length > 2 && random_below(8) != 0 ? 0 : at[length - 1];
    return length;
}

/* A DROM of such entries, with a right header. */
static inline void random_drom(struct dump *dump) {
    uint8_t body[DROM_LARGEST - 22];
    size_t most = random_below(30) == 0 ? sizeof body : random_below(400);
    size_t count = 0;
    while (count < most)
        count += random_entry(body + count, most - count);
    make_drom(dump, (uint8_t)random_below(5), body, count);
    if (random_below(2) == 0)
        sign_drom(dump);
}

/* A list of adapters as bytes, most of them with numbers that occur. */
static inline size_t random_list(uint8_t *at, size_t most) {
    size_t count = random_below(most + 1);
    for (size_t i = 0; i < count; i++)
        at[i] = (uint8_t)random_below(i % 2 == 0 ? 70 : 8);
    return count;
}

/* ---- the reports and states as bytes ---- */

static inline struct drom_report refused_report(uint64_t number) {
    struct drom_report report = {0};
    report.number = number;
    return report;
}

static inline int same_report(const struct drom_report *a, const struct drom_report *b) {
    return memcmp(a, b, sizeof *a) == 0;
}

#endif
