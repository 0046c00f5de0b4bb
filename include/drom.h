/*
 * The proved reader of Thunderbolt device ROMs (DROMs), for C99 and later and for C++.
 *
 * Link target/staticlib/libcapi.a, which `bindings/library` writes for x86-64 (System V calls).
 * crates/capi/specs defines every answer below; docs/PROMISES.md says what is proved.
 *
 * For every call:
 * - A slice is two arguments, a pointer and a count, and is lent until the call is over. A count of
 *   0 may come with any pointer, null too: the pointer is then not followed.
 * - A slice that is written (its pointer is not to const) must not overlap another slice of the
 *   same call. Slices that are only read may overlap. No alignment is asked.
 * - Nothing outside of the slices is read or written, no memory is allocated, and nothing is kept
 *   between calls: calls at the same time are fine unless one writes what the other is lent.
 * - "As lent" means that a byte has the value that it had before the call.
 * - Of a report, a state or a part with more bytes than it needs, the others are as lent. So
 *   &report and sizeof report will do.
 * - The bytes of a state need not be trustworthy: whatever they are, the call ends with an answer,
 *   and the rules above hold. A state is plain data; a copy goes on from where it was copied.
 */
#ifndef DROM_H
#define DROM_H

#include <stddef.h>
#include <stdint.h>

#ifdef __cplusplus
extern "C" {
#endif

/* The numbers that calls answer and reports hold. */
enum drom_number {
    DROM_ACCEPTED = 0,        /* nothing is wrong */
    DROM_NO_HEADER = 1,       /* fewer than 16 bytes */
    DROM_WRONG_LENGTH = 2,    /* the header's length + 13 is not the count of bytes */
    DROM_SHORT_TBT3 = 3,      /* a version below 3 with fewer than 22 bytes */
    DROM_SHORT_RECORDS = 4,   /* fewer than DROM_ROOM bytes are lent for records */
    DROM_ODD_LIST = 5,        /* the list of adapters has an odd count of bytes */
    DROM_ENTRY_ZERO = 6,      /* an entry's length is 0 */
    DROM_ENTRY_PAST_END = 7,  /* an entry runs past the end */
    DROM_ENTRY_SHORT = 8,     /* an entry is too short for its kind */
    DROM_NAME_UNENDED = 9,    /* an ASCII name has no zero byte */
    DROM_NAME_NOT_UTF8 = 10,  /* an ASCII name is not UTF-8 before its zero byte */
    DROM_TEXT_ODD = 11,       /* a UTF-16 text has an odd count of bytes */
    DROM_FED_BEYOND = 12,     /* a piece goes beyond the announced size */
    DROM_UNFINISHED = 13,     /* not all of the announced bytes have arrived */
    DROM_STATE_OUTSIDE = 18,  /* a state that no opening leaves, nor feeds after it */
    DROM_LENT_TOO_SHORT = 255 /* a report, state or part with too few bytes: nothing was done */
};

#define DROM_ROOM 16368   /* bytes of a record buffer: always enough */
#define DROM_LARGEST 4108 /* bytes of the largest DROM */
#define DROM_REPORT 96    /* bytes of a report */
#define DROM_STATE 388    /* bytes of a state */
#define DROM_PART 16      /* bytes of a part */

#define DROM_CRC32_START 0xffffffffu    /* the register before the first byte */
#define DROM_UTF16_ODD ((size_t)-1)     /* drom_utf16_ascii: an odd count of bytes */
#define DROM_UTF16_NO_ROOM ((size_t)-2) /* drom_utf16_ascii: too little room */

/*
 * What is said of a DROM. For the numbers 1 to 5, 13 and 18 all but the number is 0. For 6 to 11
 * the header's values and verdicts are told, and the records of the entries before the refused one.
 */
struct drom_report {
    uint64_t number;     /* enum drom_number */
    uint64_t offset;     /* of the refused entry, for 6 to 11; else 0 */
    uint64_t version;    /* below 3 is Thunderbolt 3 */
    uint64_t length;     /* as the header says it: the count of bytes - 13 */
    uint64_t start;      /* of the body: 22 for a version below 3, else 16 */
    uint64_t crc32;      /* as stored */
    uint64_t crc32_good; /* 1 if it is right, else 0; a wrong one is no refusal */
    uint64_t crc8;       /* as stored, for a version below 3; else 0 */
    uint64_t uuid;       /* for a version below 3; else 0 */
    uint64_t crc8_good;  /* 1 for a version below 3 with the right one, else 0 */
    uint64_t records;    /* how many records stand at the front of the record buffer */
    uint64_t bytes;      /* how many bytes they have */
};

/* A DROM that is being fed. Its last 4 bytes of padding are no part of the state. */
struct drom_state {
    uint64_t announced; /* 0 for a refused opening */
    uint64_t taken;
    uint64_t offset;
    uint64_t fill; /* how many bytes of an entry are pending */
    uint64_t count;
    uint64_t written;
    uint32_t register_; /* of CRC32 */
    uint8_t refusal;
    uint8_t header[16];
    uint8_t pending[255];
    uint8_t kinds[64]; /* of the adapters, by number */
};

/* A part of the caller's own DROM: an offset in it and a count of bytes. An empty one is 0, 0. */
struct drom_part {
    uint64_t offset;
    uint64_t length;
};

/* kind: 1 lane, 2 DisplayPort in, 3 DisplayPort out, 4 PCIe up, 5 PCIe down, any other "other". */
struct drom_adapter {
    uint8_t number;
    uint8_t kind;
};

/* ---- A whole DROM ---- */

/*
 * Reads a DROM. `list` is the adapters as bytes, number then kind; for a number the first counts.
 * Answers the report's number: 0; or 5, 4, 1, 2, 3, tested in this order; or 6 to 11 for the first
 *   entry that is refused. 255 if report_count is below DROM_REPORT.
 * Writes the report, and the records to the front of `records`.
 * As lent: the other bytes of `records`, all of them for 1 to 5; for 255 also the report.
 */
uint8_t drom_read(const uint8_t *list, size_t list_count, const uint8_t *drom, size_t drom_count,
                  uint8_t *records, size_t records_count, void *report, size_t report_count);

/*
 * What drom_read answers, writes and leaves as lent, for adapters as structs: list_count counts
 * structs, not bytes. 5 is never answered.
 */
uint8_t drom_read_listed(const struct drom_adapter *list, size_t list_count, const uint8_t *drom,
                         size_t drom_count, uint8_t *records, size_t records_count, void *report,
                         size_t report_count);

/* ---- A DROM that comes in pieces, cut anywhere ---- */

/*
 * Opens a DROM of `announced` bytes, its adapters as for drom_read.
 * Answers 0; or 5, 4, 1, tested in this order. 255 if state_count is below DROM_STATE.
 * Writes the state, also of a refused opening: it takes no byte, and drom_finish tells its number.
 * As lent: `records`, of which only the count matters; for 255 also the state.
 */
uint8_t drom_open(const uint8_t *list, size_t list_count, size_t announced, const uint8_t *records,
                  size_t records_count, void *state, size_t state_count);

/*
 * Takes a piece in, which may be empty.
 * Answers 0; or 18, 4, 12, tested in this order. 255 if state_count is below DROM_STATE.
 * Writes the state, and the records of the entries that the piece completes, behind the
 *   drom_record_bytes so far. Earlier ones are not written again: lend the same buffer each time.
 *   After a refused header or entry feeding goes on, and no more records come.
 * As lent: the other bytes of `records`; for 18, 4, 12 and 255 all of it and the state.
 */
uint8_t drom_feed(void *state, size_t state_count, const uint8_t *piece, size_t piece_count,
                  uint8_t *records, size_t records_count);

/*
 * Tells the report of what was fed.
 * Answers the report's number: 18; or 13 while bytes are missing; or what drom_read answers for the
 *   pieces joined. 255 if state_count is below DROM_STATE or report_count below DROM_REPORT. For
 *   a state that no opening and no feed left, the number may be any, 255 too.
 * Writes the report.
 * As lent: the state, so that feeding may go on, and asked again it says the same; for 255 because
 *   of a count also the report.
 */
uint8_t drom_finish(const void *state, size_t state_count, void *report, size_t report_count);

/*
 * How many records were written for a state so far, and how many bytes they have.
 * Answer that number; 0 if state_count is below DROM_STATE. For a state that no opening and no feed
 *   left it may be any: compare it with the buffer's size before it is used.
 * Write nothing. As lent: the state.
 */
size_t drom_record_count(const void *state, size_t state_count);
size_t drom_record_bytes(const void *state, size_t state_count);

/* ---- Parts of the caller's own DROM ---- */

/*
 * The header, what follows it, and both.
 * Answer 0. 255 if part_count is below DROM_PART.
 * Write the part; an empty one for a refused header (1, 2, 3). Entries do not matter to it.
 * As lent: the DROM; for 255 also the part.
 */
uint8_t drom_header(const uint8_t *drom, size_t drom_count, void *part, size_t part_count);
uint8_t drom_body(const uint8_t *drom, size_t drom_count, void *part, size_t part_count);
uint8_t drom_whole(const uint8_t *drom, size_t drom_count, void *part, size_t part_count);

/*
 * The n-th accepted entry, counted from 0, with adapters as for drom_read.
 * Answers 0. 255 if part_count is below DROM_PART.
 * Writes the part; an empty one for a refused header, an odd list, and an n that is not below the
 *   record count. Entries before a refused one can be had.
 * As lent: list and DROM; for 255 also the part.
 */
uint8_t drom_entry(const uint8_t *list, size_t list_count, const uint8_t *drom, size_t drom_count,
                   size_t n, void *part, size_t part_count);

/* ---- Checksums and texts. All but drom_utf16_ascii write nothing: `bytes` is as lent. ---- */

/* Answers the CRC8 of a header's UUID, for any bytes. 0xff for none. */
uint8_t drom_crc8(const uint8_t *bytes, size_t count);

/* Answers CRC-32C (RFC 3720). 0 for no bytes. */
uint32_t drom_crc32(const uint8_t *bytes, size_t count);

/*
 * Answers the register of CRC-32C after further bytes; after none, the one given. It starts as
 * DROM_CRC32_START, and ~register is the CRC-32C of all the bytes.
 */
uint32_t drom_crc32_more(uint32_t register_, const uint8_t *bytes, size_t count);

/* Answers 1 for UTF-8 (RFC 3629), no bytes too, else 0. */
uint8_t drom_is_utf8(const uint8_t *bytes, size_t count);

/*
 * Answers how many characters a UTF-16 text (little-endian) shows: 21 to 7E as they are, one '.'
 *   for each unpaired surrogate, no others. DROM_UTF16_ODD for an odd count; then
 *   DROM_UTF16_NO_ROOM if out_count is below count / 2.
 * Writes the characters to the front of `out`, without a closing zero.
 * As lent: `bytes`, and the other bytes of `out`; for DROM_UTF16_ODD and _NO_ROOM all of it.
 */
size_t drom_utf16_ascii(const uint8_t *bytes, size_t count, uint8_t *out, size_t out_count);

#ifdef __cplusplus
}
#endif

/* The layout that the library writes, tested where the language can. */
#if defined(__cplusplus) && __cplusplus >= 201103L
#define DROM_ASSERT(condition) static_assert(condition, #condition)
#elif defined(__STDC_VERSION__) && __STDC_VERSION__ >= 201112L
#define DROM_ASSERT(condition) _Static_assert(condition, #condition)
#endif
#ifdef DROM_ASSERT
DROM_ASSERT(sizeof(size_t) == 8);
DROM_ASSERT(sizeof(struct drom_report) == DROM_REPORT);
DROM_ASSERT(offsetof(struct drom_report, offset) == 8);
DROM_ASSERT(offsetof(struct drom_report, version) == 16);
DROM_ASSERT(offsetof(struct drom_report, length) == 24);
DROM_ASSERT(offsetof(struct drom_report, start) == 32);
DROM_ASSERT(offsetof(struct drom_report, crc32) == 40);
DROM_ASSERT(offsetof(struct drom_report, crc32_good) == 48);
DROM_ASSERT(offsetof(struct drom_report, crc8) == 56);
DROM_ASSERT(offsetof(struct drom_report, uuid) == 64);
DROM_ASSERT(offsetof(struct drom_report, crc8_good) == 72);
DROM_ASSERT(offsetof(struct drom_report, records) == 80);
DROM_ASSERT(offsetof(struct drom_report, bytes) == 88);
DROM_ASSERT(sizeof(struct drom_state) == 392);
DROM_ASSERT(offsetof(struct drom_state, taken) == 8);
DROM_ASSERT(offsetof(struct drom_state, offset) == 16);
DROM_ASSERT(offsetof(struct drom_state, fill) == 24);
DROM_ASSERT(offsetof(struct drom_state, count) == 32);
DROM_ASSERT(offsetof(struct drom_state, written) == 40);
DROM_ASSERT(offsetof(struct drom_state, register_) == 48);
DROM_ASSERT(offsetof(struct drom_state, refusal) == 52);
DROM_ASSERT(offsetof(struct drom_state, header) == 53);
DROM_ASSERT(offsetof(struct drom_state, pending) == 69);
DROM_ASSERT(offsetof(struct drom_state, kinds) == 324);
DROM_ASSERT(sizeof(struct drom_part) == DROM_PART);
DROM_ASSERT(offsetof(struct drom_part, length) == 8);
DROM_ASSERT(sizeof(struct drom_adapter) == 2);
#undef DROM_ASSERT
#endif

#endif
