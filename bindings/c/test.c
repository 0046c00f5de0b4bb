/*
 * Tests of the library's C face, on good and bad input: test [DUMP...].
 * A failed check is told with its place; the exit status is 1 if there was one.
 */
#include "common.h"

/* ---- buffers in a frame: what is written outside of them shows ---- */

#define MARGIN 48

struct frame {
    uint8_t *block;
    uint8_t *at;
    size_t count;
};

static struct frame frame_of(size_t count) {
    struct frame frame;
    frame.block = malloc(count + 2 * MARGIN);
    if (frame.block == NULL)
        exit(EXIT_FAILURE);
    memset(frame.block, LENT, count + 2 * MARGIN);
    frame.at = frame.block + MARGIN;
    frame.count = count;
    return frame;
}

/* Whether all is as lent but for `written` bytes at the front. */
static int kept_from(const struct frame *frame, size_t written) {
    return all_bytes(frame->block, MARGIN, LENT) &&
           all_bytes(frame->at + written, frame->count - written + MARGIN, LENT);
}

static void drop_frame(struct frame *frame) {
    free(frame->block);
    frame->block = NULL;
}

/* ---- bytes and DROMs of the tests ---- */

struct bytes {
    const uint8_t *at;
    size_t count;
};

#define BYTES(text)                                                                                \
    { (const uint8_t *)(text), sizeof(text) - 1 }

static const struct bytes no_bytes = {NULL, 0};

static struct bytes bytes_of(const struct dump *dump) {
    struct bytes bytes;
    bytes.at = dump->bytes;
    bytes.count = dump->count;
    return bytes;
}

static struct bytes part_of(struct bytes bytes, size_t from, size_t to) {
    struct bytes part;
    part.at = bytes.at + from;
    part.count = to - from;
    return part;
}

/* `03 08 06`: one TMU entry, behind a byte of padding. */
static void small_drom(struct dump *dump) {
    make_drom(dump, 3, (const uint8_t *)"\x01\x03\x08\x06", 4);
    sign_drom(dump);
}

/* Some of each: names, adapters, UTF-16, and at the end an entry that is refused (9). */
static void long_drom(struct dump *dump, uint8_t version) {
    static const struct bytes body =
        BYTES("\x05\x01\x44\x6f\x00\x03\x85\xf9\x02\xc3\x04\x81\x90\x02\x05\x86\x00\x00\x49"
              "\x03\x08\x06\x06\x0c\x00\xd8\x41\x00\x06\x0f\x01\x01\x00\x21\x01\x03\x02\x41");
    make_drom(dump, version, body.at, body.count);
    sign_drom(dump);
}

static const struct bytes long_list = BYTES("\x01\x01\x05\x05\x06\x02\x05\x04");

/* ---- one DROM in three ways ---- */

struct outcome {
    uint8_t answer;
    struct drom_report report;
    uint8_t records[DROM_ROOM];
};

static void fresh_outcome(struct outcome *outcome) {
    memset(outcome, LENT, sizeof *outcome);
}

static void by_read(struct outcome *outcome, struct bytes list, struct bytes drom) {
    fresh_outcome(outcome);
    outcome->answer = drom_read(list.at, list.count, drom.at, drom.count, outcome->records,
                                DROM_ROOM, &outcome->report, sizeof outcome->report);
    EXPECT(outcome->answer, outcome->report.number);
    CHECK(outcome->report.bytes <= DROM_ROOM);
    CHECK(all_bytes(outcome->records + outcome->report.bytes, DROM_ROOM - outcome->report.bytes,
                    LENT));
}

/* For a list of an even count: two bytes are one struct. */
static void by_structs(struct outcome *outcome, struct bytes list, struct bytes drom) {
    struct drom_adapter adapters[64];
    size_t count = list.count / 2;
    CHECK(count <= COUNT_OF(adapters));
    copy_bytes(adapters, list.at, 2 * count);
    fresh_outcome(outcome);
    outcome->answer = drom_read_listed(adapters, count, drom.at, drom.count, outcome->records,
                                       DROM_ROOM, &outcome->report, sizeof outcome->report);
}

/* Where the piece that starts at a place ends. */
typedef size_t next_end(size_t at, size_t count);

static size_t cut_places[2];

static size_t at_cut_places(size_t at, size_t count) {
    if (at < cut_places[0])
        return cut_places[0];
    return at < cut_places[1] ? cut_places[1] : count;
}

static size_t at_each_byte(size_t at, size_t count) {
    return at < count ? at + 1 : count;
}

/* Empty pieces too. */
static size_t at_random(size_t at, size_t count) {
    size_t end = at + random_below(30);
    return end < count ? end : count;
}

/* After each piece the records so far are the first of the whole, and nothing stands behind them.
 */
static void check_so_far(const struct outcome *fed, const struct drom_state *state,
                         const struct outcome *whole) {
    size_t bytes = drom_record_bytes(state, sizeof *state);
    CHECK(bytes <= whole->report.bytes);
    CHECK(drom_record_count(state, sizeof *state) <= whole->report.records);
    CHECK(same_bytes(fed->records, whole->records, bytes));
    CHECK(all_bytes(fed->records + bytes, DROM_ROOM - bytes, LENT));
}

static void by_feeding(struct outcome *outcome, struct bytes list, struct bytes drom,
                       next_end *next, const struct outcome *whole) {
    struct drom_state state;
    fresh_outcome(outcome);
    drom_open(list.at, list.count, drom.count, outcome->records, DROM_ROOM, &state, sizeof state);
    for (size_t at = 0; at < drom.count && state.announced != 0;) {
        size_t end = next(at, drom.count);
        EXPECT(drom_feed(&state, sizeof state, drom.at + at, end - at, outcome->records, DROM_ROOM),
               0);
        check_so_far(outcome, &state, whole);
        at = end;
    }
    outcome->answer = drom_finish(&state, sizeof state, &outcome->report, sizeof outcome->report);
    EXPECT(drom_record_count(&state, sizeof state), outcome->report.records);
    EXPECT(drom_record_bytes(&state, sizeof state), outcome->report.bytes);
}

static void check_outcome(const struct outcome *got, const struct outcome *expected) {
    EXPECT(got->answer, expected->answer);
    CHECK(same_report(&got->report, &expected->report));
    CHECK(memcmp(got->records, expected->records, DROM_ROOM) == 0);
}

static struct outcome whole_outcome;
static struct outcome other_outcome;

static void check_all_ways(struct bytes list, struct bytes drom) {
    by_read(&whole_outcome, list, drom);
    if (list.count % 2 == 0) {
        by_structs(&other_outcome, list, drom);
        check_outcome(&other_outcome, &whole_outcome);
    }
    by_feeding(&other_outcome, list, drom, at_each_byte, &whole_outcome);
    check_outcome(&other_outcome, &whole_outcome);
    for (int i = 0; i < 10; i++) {
        by_feeding(&other_outcome, list, drom, at_random, &whole_outcome);
        check_outcome(&other_outcome, &whole_outcome);
    }
}

/* Cut at every two places, the same place and the ends too. */
static void check_all_cuts(struct bytes list, struct bytes drom) {
    by_read(&whole_outcome, list, drom);
    for (size_t i = 0; i <= drom.count; i++) {
        for (size_t j = i; j <= drom.count; j++) {
            cut_places[0] = i;
            cut_places[1] = j;
            by_feeding(&other_outcome, list, drom, at_cut_places, &whole_outcome);
            check_outcome(&other_outcome, &whole_outcome);
        }
    }
}

/* ---- reading ---- */

static void test_layout(void) {
    EXPECT(sizeof(struct drom_report), DROM_REPORT);
    EXPECT(offsetof(struct drom_report, bytes), 88);
    EXPECT(offsetof(struct drom_state, register_), 48);
    EXPECT(offsetof(struct drom_state, refusal), 52);
    EXPECT(offsetof(struct drom_state, header), 53);
    EXPECT(offsetof(struct drom_state, pending), 69);
    EXPECT(offsetof(struct drom_state, kinds) + sizeof((struct drom_state *)0)->kinds, DROM_STATE);
    EXPECT(sizeof(struct drom_part), DROM_PART);
    EXPECT(sizeof(struct drom_adapter), 2);
}

struct example {
    struct bytes body;
    struct bytes list;
    uint8_t number;
    size_t offset;
    struct bytes records;
};

static const struct example examples[] = {
    {BYTES(""), BYTES(""), 0, 0, BYTES("")},
    {BYTES("\x01"), BYTES(""), 0, 0, BYTES("\x00\x00\x80\x08")},
    {BYTES("\x03\x08\x06"), BYTES(""), 0, 0, BYTES("\x0a\x00\x80\x18\x02\x01")},
    {BYTES("\x03\x08\x03"), BYTES(""), 0, 0, BYTES("\x0a\x00\x80\x18\xff\x00")},
    {BYTES("\x00"), BYTES(""), 6, 16, BYTES("")},
    {BYTES("\x03\x08"), BYTES(""), 7, 16, BYTES("")},
    {BYTES("\x02\x08"), BYTES(""), 8, 16, BYTES("")},
    {BYTES("\x03\x01\x41"), BYTES(""), 9, 16, BYTES("")},
    {BYTES("\x04\x01\xff\x00"), BYTES(""), 10, 16, BYTES("")},
    {BYTES("\x03\x0c\x41"), BYTES(""), 11, 16, BYTES("")},
    {BYTES("\x01\x03\x01\x41"), BYTES(""), 9, 17, BYTES("\x00\x00\x80\x08")},
    {BYTES("\x06\x0c\x00\xd8\x41\x00"), BYTES(""), 0, 0, BYTES("\x0e\x00\x80\x30\x02.A")},
    {BYTES("\x06\x0c\x3d\xd8\x00\xde"), BYTES(""), 0, 0, BYTES("\x0e\x00\x80\x30\x00")},
    {BYTES("\x03\x85\xf9"), BYTES("\x05\x05"), 0, 0, BYTES("\x06\x00\x80\x18\x14\xfc")},
    {BYTES("\x03\x85\xf9"), BYTES(""), 0, 0, BYTES("\x01\x00\x80\x18\x05")},
    {BYTES("\x03\x85\xf9"), BYTES("\x05\x09\x05\x05"), 0, 0, BYTES("\x01\x00\x80\x18\x05")},
    {BYTES("\x03\x85\xf9"), BYTES("\x45\x05"), 0, 0, BYTES("\x01\x00\x80\x18\x05")},
    {BYTES("\x06\x0f\x01\x01\x00\x21"), BYTES(""), 0, 0, BYTES("\x11\x00\x80\x30\x08\x10\x00\x09")},
    {BYTES("\x06\x0f\x01\x02\x00\x21"), BYTES(""), 8, 16, BYTES("")},
};

static void test_examples(void) {
    for (size_t i = 0; i < COUNT_OF(examples); i++) {
        const struct example *e = &examples[i];
        struct dump dump;
        make_drom(&dump, 3, e->body.at, e->body.count);
        check_all_ways(e->list, bytes_of(&dump));
        EXPECT(whole_outcome.answer, e->number);
        EXPECT(whole_outcome.report.offset, e->offset);
        EXPECT(whole_outcome.report.bytes, e->records.count);
        CHECK(same_bytes(whole_outcome.records, e->records.at, e->records.count));
    }
}

static void test_report(void) {
    struct drom_report expected = {0, 0, 2, 10, 22, 0, 1, 0, 0, 1, 1, 4};
    struct dump dump;
    make_drom(&dump, 2, (const uint8_t *)"\x01", 1);
    put_number(dump.bytes + 1, 8, UINT64_C(0x0102030405060708));
    sign_drom(&dump);
    expected.crc32 = drom_crc32(dump.bytes + 13, dump.count - 13);
    expected.crc8 = drom_crc8(dump.bytes + 1, 8);
    expected.uuid = UINT64_C(0x0102030405060708);
    check_all_ways(no_bytes, bytes_of(&dump));
    CHECK(same_report(&whole_outcome.report, &expected));
    dump.bytes[1] ^= 1;
    dump.bytes[22] = 0;
    check_all_ways(no_bytes, bytes_of(&dump));
    EXPECT(whole_outcome.answer, DROM_ENTRY_ZERO);
    EXPECT(whole_outcome.report.offset, 22);
    EXPECT(whole_outcome.report.crc8_good, 0);
    EXPECT(whole_outcome.report.crc32_good, 0);
}

/* What is wrong with a call: a list, a count of the small DROM's bytes, a room, and the number. */
struct refusal {
    size_t list_count;
    size_t drom_count;
    size_t room;
    uint8_t number;
};

static const struct refusal refusals[] = {
    {1, 3, 0, DROM_ODD_LIST},
    {3, 20, DROM_ROOM, DROM_ODD_LIST},
    {0, 3, 0, DROM_SHORT_RECORDS},
    {2, 20, DROM_ROOM - 1, DROM_SHORT_RECORDS},
    {0, 0, DROM_ROOM, DROM_NO_HEADER},
    {0, 15, DROM_ROOM, DROM_NO_HEADER},
    {2, 16, DROM_ROOM, DROM_WRONG_LENGTH},
    {0, 20, DROM_ROOM, DROM_ACCEPTED},
    {0, 20, DROM_ROOM + 1, DROM_ACCEPTED},
};

static void check_refusal(const struct refusal *refusal, const uint8_t *list, const uint8_t *drom) {
    struct frame records = frame_of(refusal->room);
    struct drom_report report;
    struct drom_report expected = refused_report(refusal->number);
    EXPECT(drom_read(list, refusal->list_count, drom, refusal->drom_count, records.at,
                     records.count, &report, sizeof report),
           refusal->number);
    CHECK(refusal->number == 0 || same_report(&report, &expected));
    CHECK(kept_from(&records, refusal->number == 0 ? report.bytes : 0));
    drop_frame(&records);
}

static void test_refusals(void) {
    static const uint8_t list[] = {1, 1, 2};
    struct dump dump;
    small_drom(&dump);
    for (size_t i = 0; i < COUNT_OF(refusals); i++)
        check_refusal(&refusals[i], list, dump.bytes);
    make_drom(&dump, 2, NULL, 0);
    dump.count = 21;
    check_all_ways(no_bytes, bytes_of(&dump));
    EXPECT(whole_outcome.answer, DROM_WRONG_LENGTH);
    dump.bytes[14] = 8;
    check_all_ways(no_bytes, bytes_of(&dump));
    EXPECT(whole_outcome.answer, DROM_SHORT_TBT3);
}

static void test_sizes(void) {
    struct dump dump;
    memset(dump.bytes, 1, sizeof dump.bytes);
    dump.bytes[13] = 3;
    put_number(dump.bytes + 14, 2, 4095);
    dump.count = DROM_LARGEST;
    by_read(&whole_outcome, no_bytes, bytes_of(&dump));
    EXPECT(whole_outcome.answer, 0);
    EXPECT(whole_outcome.report.records, 4092);
    EXPECT(whole_outcome.report.bytes, DROM_ROOM);
    by_feeding(&other_outcome, no_bytes, bytes_of(&dump), at_random, &whole_outcome);
    check_outcome(&other_outcome, &whole_outcome);
    dump.count = DROM_LARGEST + 1;
    by_read(&whole_outcome, no_bytes, bytes_of(&dump));
    EXPECT(whole_outcome.answer, DROM_WRONG_LENGTH);
    by_feeding(&other_outcome, no_bytes, bytes_of(&dump), at_random, &whole_outcome);
    check_outcome(&other_outcome, &whole_outcome);
}

static void test_ways_and_cuts(void) {
    struct dump dump;
    small_drom(&dump);
    check_all_cuts(no_bytes, bytes_of(&dump));
    for (uint8_t version = 1; version <= 3; version++) {
        long_drom(&dump, version);
        check_all_ways(long_list, bytes_of(&dump));
        EXPECT(whole_outcome.answer, DROM_NAME_UNENDED);
        EXPECT(whole_outcome.report.records, 9);
        EXPECT(whole_outcome.report.crc32_good, 1);
        check_all_cuts(long_list, bytes_of(&dump));
    }
    for (int i = 0; i < 500; i++) {
        uint8_t list[40];
        struct bytes lent = {list, 0};
        lent.count = random_list(list, sizeof list);
        random_drom(&dump);
        check_all_ways(lent, bytes_of(&dump));
    }
}

/* Slices that are only read may be the same, and none needs to be aligned. */
static void test_overlap_and_alignment(void) {
    struct dump dump;
    uint8_t list[20];
    struct frame report = frame_of(DROM_REPORT + 1);
    small_drom(&dump);
    memcpy(list, dump.bytes, sizeof list);
    by_read(&whole_outcome, (struct bytes){list, sizeof list}, bytes_of(&dump));
    by_read(&other_outcome, bytes_of(&dump), bytes_of(&dump));
    check_outcome(&other_outcome, &whole_outcome);
    for (size_t shift = 0; shift < 2; shift++) {
        memset(report.at, LENT, report.count);
        EXPECT(drom_read(NULL, 0, dump.bytes, dump.count, other_outcome.records, DROM_ROOM,
                         report.at + shift, DROM_REPORT),
               0);
        CHECK(memcmp(report.at + shift, &whole_outcome.report, DROM_REPORT) == 0);
    }
    EXPECT(report.at[0], LENT);
    drop_frame(&report);
}

/* ---- feeding ---- */

/* A feeding in which everything that is lent stands in a frame. */
struct feeding {
    struct frame state;
    struct frame records;
    struct dump dump;
};

static void start_feeding(struct feeding *f) {
    small_drom(&f->dump);
    f->state = frame_of(DROM_STATE);
    f->records = frame_of(DROM_ROOM);
    EXPECT(drom_open(NULL, 0, f->dump.count, f->records.at, DROM_ROOM, f->state.at, DROM_STATE), 0);
}

static void end_feeding(struct feeding *f) {
    CHECK(kept_from(&f->state, DROM_STATE));
    CHECK(kept_from(&f->records, drom_record_bytes(f->state.at, DROM_STATE)));
    drop_frame(&f->state);
    drop_frame(&f->records);
}

static uint8_t feed_part(struct feeding *f, size_t from, size_t to) {
    return drom_feed(f->state.at, DROM_STATE, f->dump.bytes + from, to - from, f->records.at,
                     f->records.count);
}

/* The number, with a report that is zero but for it. */
static uint8_t finish_plain(struct feeding *f) {
    struct drom_report report;
    uint8_t number = drom_finish(f->state.at, DROM_STATE, &report, sizeof report);
    struct drom_report expected = refused_report(number);
    CHECK(same_report(&report, &expected));
    return number;
}

/* All is in: the one right report, twice. */
static void check_finished(struct feeding *f) {
    struct drom_report report;
    by_read(&whole_outcome, no_bytes, bytes_of(&f->dump));
    for (int i = 0; i < 2; i++) {
        EXPECT(drom_finish(f->state.at, DROM_STATE, &report, sizeof report), 0);
        CHECK(same_report(&report, &whole_outcome.report));
    }
    CHECK(memcmp(f->records.at, whole_outcome.records, DROM_ROOM) == 0);
}

static void test_too_much(void) {
    static const uint8_t more[100] = {1};
    uint8_t before[DROM_STATE];
    struct feeding f;
    start_feeding(&f);
    EXPECT(feed_part(&f, 0, 10), 0);
    memcpy(before, f.state.at, DROM_STATE);
    EXPECT(drom_feed(f.state.at, DROM_STATE, more, sizeof more, f.records.at, DROM_ROOM),
           DROM_FED_BEYOND);
    EXPECT(drom_feed(f.state.at, DROM_STATE, more, 11, f.records.at, DROM_ROOM), DROM_FED_BEYOND);
    CHECK(memcmp(before, f.state.at, DROM_STATE) == 0);
    CHECK(kept_from(&f.records, 0));
    EXPECT(feed_part(&f, 10, f.dump.count), 0);
    memcpy(before, f.state.at, DROM_STATE);
    EXPECT(drom_feed(f.state.at, DROM_STATE, more, 1, f.records.at, DROM_ROOM), DROM_FED_BEYOND);
    EXPECT(drom_feed(f.state.at, DROM_STATE, more, 0, f.records.at, DROM_ROOM), 0);
    CHECK(memcmp(before, f.state.at, DROM_STATE) == 0);
    check_finished(&f);
    end_feeding(&f);
}

static void test_early_finish(void) {
    struct feeding f;
    start_feeding(&f);
    for (size_t i = 0; i < f.dump.count; i++) {
        EXPECT(finish_plain(&f), DROM_UNFINISHED);
        EXPECT(feed_part(&f, i, i + 1), 0);
    }
    check_finished(&f);
    end_feeding(&f);
}

static void test_small_buffer_in_the_middle(void) {
    static const size_t rooms[] = {0, 1, DROM_ROOM - 1};
    uint8_t before[DROM_STATE];
    struct feeding f;
    start_feeding(&f);
    EXPECT(feed_part(&f, 0, 18), 0);
    EXPECT(drom_record_count(f.state.at, DROM_STATE), 1);
    memcpy(before, f.state.at, DROM_STATE);
    for (size_t i = 0; i < COUNT_OF(rooms); i++) {
        struct frame small = frame_of(rooms[i]);
        EXPECT(drom_feed(f.state.at, DROM_STATE, f.dump.bytes + 18, f.dump.count - 18, small.at,
                         small.count),
               DROM_SHORT_RECORDS);
        /* 4 comes before 12. */
        EXPECT(drom_feed(f.state.at, DROM_STATE, f.dump.bytes, f.dump.count, small.at, small.count),
               DROM_SHORT_RECORDS);
        CHECK(kept_from(&small, 0));
        CHECK(memcmp(before, f.state.at, DROM_STATE) == 0);
        drop_frame(&small);
    }
    EXPECT(feed_part(&f, 18, f.dump.count), 0);
    check_finished(&f);
    end_feeding(&f);
}

static void check_refused_opening(const struct refusal *refusal) {
    static const uint8_t list[] = {1, 1, 2};
    uint8_t before[DROM_STATE];
    struct feeding f;
    start_feeding(&f);
    EXPECT(drom_open(list, refusal->list_count, refusal->drom_count, f.records.at, refusal->room,
                     f.state.at, DROM_STATE),
           refusal->number);
    memcpy(before, f.state.at, DROM_STATE);
    EXPECT(feed_part(&f, 0, f.dump.count), DROM_FED_BEYOND);
    EXPECT(feed_part(&f, 0, 1), DROM_FED_BEYOND);
    EXPECT(feed_part(&f, 0, 0), 0);
    EXPECT(finish_plain(&f), refusal->number);
    EXPECT(drom_record_count(f.state.at, DROM_STATE), 0);
    EXPECT(drom_record_bytes(f.state.at, DROM_STATE), 0);
    CHECK(memcmp(before, f.state.at, DROM_STATE) == 0);
    CHECK(kept_from(&f.records, 0));
    end_feeding(&f);
}

static void test_refused_openings(void) {
    for (size_t i = 0; i < COUNT_OF(refusals); i++) {
        uint8_t number = refusals[i].number;
        if (number != DROM_ACCEPTED && number != DROM_WRONG_LENGTH)
            check_refused_opening(&refusals[i]);
    }
}

/* Sizes that no DROM has are opened, and refused with the header. */
static void test_announced_too_large(void) {
    static const size_t sizes[] = {DROM_LARGEST + 1, ((size_t)1 << 32) + 20, SIZE_MAX - 1,
                                   SIZE_MAX};
    for (size_t i = 0; i < COUNT_OF(sizes); i++) {
        struct feeding f;
        start_feeding(&f);
        EXPECT(drom_open(NULL, 0, sizes[i], f.records.at, DROM_ROOM, f.state.at, DROM_STATE), 0);
        EXPECT(feed_part(&f, 0, 16), 0);
        EXPECT(((struct drom_state *)(void *)f.state.at)->refusal, DROM_WRONG_LENGTH);
        EXPECT(feed_part(&f, 16, f.dump.count), 0);
        EXPECT(finish_plain(&f), DROM_UNFINISHED);
        EXPECT(drom_record_count(f.state.at, DROM_STATE), 0);
        end_feeding(&f);
    }
}

/* ---- states of any bytes ---- */

static void random_state_bytes(uint8_t *state) {
    random_bytes(state, DROM_STATE);
}

/* A state in the middle of a DROM, with some bytes changed. */
static void mutated_state(uint8_t *state) {
    static uint8_t records[DROM_ROOM];
    struct dump dump;
    random_drom(&dump);
    drom_open(NULL, 0, dump.count, records, DROM_ROOM, state, DROM_STATE);
    drom_feed(state, DROM_STATE, dump.bytes, random_below(dump.count + 1), records, DROM_ROOM);
    for (size_t i = 1 + random_below(3); i > 0; i--)
        state[random_below(random_below(2) == 0 ? 53 : DROM_STATE)] = (uint8_t)random_number();
}

/* Numbers at the borders of the reader's own bounds. */
static void border_state(uint8_t *state) {
    static const uint64_t numbers[] = {
        0, 1, 15, 16, 17, 22, 254, 255, 4108, 4109, 16368, 16369, UINT64_MAX - 1, UINT64_MAX};
    memset(state, 0, DROM_STATE);
    for (size_t place = 0; place < 6; place++)
        put_number(state + 8 * place, 8, numbers[random_below(COUNT_OF(numbers))]);
    state[52] = (uint8_t)(random_below(3) * 6);
    state[66] = (uint8_t)random_below(5);
    state[69] = (uint8_t)random_number();
}

static void check_any_state(struct frame *state, struct frame *records) {
    uint8_t before[DROM_STATE], piece[300];
    struct drom_report report;
    struct drom_report outside = refused_report(DROM_STATE_OUTSIDE);
    size_t count = random_below(sizeof piece + 1);
    memcpy(before, state->at, DROM_STATE);
    memset(records->at, LENT, DROM_ROOM);
    random_bytes(piece, count);
    uint8_t number = drom_feed(state->at, DROM_STATE, piece, count, records->at, DROM_ROOM);
    CHECK(number == 0 || number == DROM_FED_BEYOND || number == DROM_STATE_OUTSIDE);
    CHECK(number == 0 || memcmp(before, state->at, DROM_STATE) == 0);
    CHECK(kept_from(state, DROM_STATE));
    CHECK(kept_from(records, number == 0 ? DROM_ROOM : 0));
    uint8_t told = drom_finish(state->at, DROM_STATE, &report, sizeof report);
    EXPECT(told, report.number);
    CHECK(number != DROM_STATE_OUTSIDE || same_report(&report, &outside));
    struct drom_state fields;
    memcpy(&fields, state->at, DROM_STATE);
    EXPECT(drom_record_count(state->at, DROM_STATE), fields.count);
    EXPECT(drom_record_bytes(state->at, DROM_STATE), fields.written);
}

static void test_any_state(void) {
    static void (*const makers[])(uint8_t *) = {random_state_bytes, mutated_state, border_state};
    struct frame state = frame_of(DROM_STATE);
    struct frame records = frame_of(DROM_ROOM);
    for (int i = 0; i < 30000; i++) {
        makers[i % 3](state.at);
        check_any_state(&state, &records);
    }
    drop_frame(&state);
    drop_frame(&records);
}

/* ---- too few bytes lent ---- */

static void check_report_of(size_t count, const struct drom_state *state, const struct dump *dump) {
    static const struct drom_adapter list[] = {{1, 1}};
    uint8_t number = count < DROM_REPORT ? DROM_LENT_TOO_SHORT : 0;
    size_t written = count < DROM_REPORT ? 0 : DROM_REPORT;
    for (int way = 0; way < 3; way++) {
        struct frame report = frame_of(count);
        struct frame records = frame_of(DROM_ROOM);
        uint8_t answer = way == 0   ? drom_finish(state, sizeof *state, report.at, count)
                         : way == 1 ? drom_read(NULL, 0, dump->bytes, dump->count, records.at,
                                                DROM_ROOM, report.at, count)
                                    : drom_read_listed(list, 1, dump->bytes, dump->count,
                                                       records.at, DROM_ROOM, report.at, count);
        EXPECT(answer, number);
        CHECK(kept_from(&report, written));
        CHECK(kept_from(&records, way == 0 || written == 0 ? 0 : 10));
        drop_frame(&report);
        drop_frame(&records);
    }
}

static void test_short_reports(void) {
    struct drom_state state;
    struct dump dump;
    small_drom(&dump);
    drom_open(NULL, 0, dump.count, other_outcome.records, DROM_ROOM, &state, sizeof state);
    drom_feed(&state, sizeof state, dump.bytes, dump.count, other_outcome.records, DROM_ROOM);
    for (size_t count = 0; count < DROM_REPORT + 20; count++)
        check_report_of(count, &state, &dump);
}

static void check_state_of(size_t count, const struct dump *dump) {
    struct frame state = frame_of(count);
    struct frame records = frame_of(DROM_ROOM);
    struct frame report = frame_of(DROM_REPORT);
    int enough = count >= DROM_STATE;
    uint8_t number = enough ? 0 : DROM_LENT_TOO_SHORT;
    EXPECT(drom_open(NULL, 0, dump->count, records.at, DROM_ROOM, state.at, count), number);
    CHECK(kept_from(&state, enough ? DROM_STATE : 0));
    EXPECT(drom_feed(state.at, count, dump->bytes, dump->count, records.at, DROM_ROOM), number);
    CHECK(kept_from(&state, enough ? DROM_STATE : 0));
    CHECK(kept_from(&records, enough ? 10 : 0));
    EXPECT(drom_finish(state.at, count, report.at, DROM_REPORT), number);
    CHECK(kept_from(&report, enough ? DROM_REPORT : 0));
    EXPECT(drom_record_count(state.at, count), enough ? 2 : 0);
    EXPECT(drom_record_bytes(state.at, count), enough ? 10 : 0);
    drop_frame(&state);
    drop_frame(&records);
    drop_frame(&report);
}

static void test_short_states(void) {
    struct dump dump;
    small_drom(&dump);
    for (size_t count = 0; count < DROM_STATE + 20; count++)
        check_state_of(count, &dump);
}

static void check_part_of(size_t count, const struct dump *dump) {
    uint8_t number = count < DROM_PART ? DROM_LENT_TOO_SHORT : 0;
    for (int way = 0; way < 4; way++) {
        struct frame part = frame_of(count);
        uint8_t answer = way == 0   ? drom_header(dump->bytes, dump->count, part.at, count)
                         : way == 1 ? drom_body(dump->bytes, dump->count, part.at, count)
                         : way == 2
                             ? drom_whole(dump->bytes, dump->count, part.at, count)
                             : drom_entry(NULL, 0, dump->bytes, dump->count, 1, part.at, count);
        EXPECT(answer, number);
        CHECK(kept_from(&part, number == 0 ? DROM_PART : 0));
        drop_frame(&part);
    }
}

static void test_short_parts(void) {
    struct dump dump;
    small_drom(&dump);
    for (size_t count = 0; count < DROM_PART + 10; count++)
        check_part_of(count, &dump);
}

/* ---- parts ---- */

static void check_part(struct drom_part part, uint64_t offset, uint64_t length) {
    EXPECT(part.offset, offset);
    EXPECT(part.length, length);
}

static struct drom_part nth_entry(struct bytes list, struct bytes drom, size_t n) {
    struct drom_part part;
    EXPECT(drom_entry(list.at, list.count, drom.at, drom.count, n, &part, sizeof part), 0);
    return part;
}

static void check_parts(struct bytes drom, size_t header, size_t body) {
    struct drom_part part;
    EXPECT(drom_header(drom.at, drom.count, &part, sizeof part), 0);
    check_part(part, 0, header);
    EXPECT(drom_body(drom.at, drom.count, &part, sizeof part), 0);
    check_part(part, body == 0 ? 0 : header, body);
    EXPECT(drom_whole(drom.at, drom.count, &part, sizeof part), 0);
    check_part(part, 0, header + body);
}

/* As many entries as records, one behind the other; after them none. */
static void check_entries(struct bytes list, struct bytes drom) {
    by_read(&whole_outcome, list, drom);
    uint64_t at = whole_outcome.report.start;
    for (size_t n = 0; n < whole_outcome.report.records; n++) {
        struct drom_part part = nth_entry(list, drom, n);
        check_part(part, at, drom.at[at]);
        at += part.length;
    }
    check_part(nth_entry(list, drom, (size_t)whole_outcome.report.records), 0, 0);
    check_part(nth_entry(list, drom, SIZE_MAX), 0, 0);
    CHECK(whole_outcome.answer < DROM_ENTRY_ZERO || at == whole_outcome.report.offset);
    CHECK(whole_outcome.answer != 0 || at == drom.count);
}

static void test_parts(void) {
    struct dump dump;
    small_drom(&dump);
    check_parts(bytes_of(&dump), 16, 4);
    check_parts(part_of(bytes_of(&dump), 0, 19), 0, 0);
    check_parts(part_of(bytes_of(&dump), 0, 15), 0, 0);
    check_entries(no_bytes, bytes_of(&dump));
    check_part(nth_entry((struct bytes)BYTES("\x01"), bytes_of(&dump), 0), 0, 0);
    check_part(nth_entry(no_bytes, part_of(bytes_of(&dump), 0, 19), 0), 0, 0);
    make_drom(&dump, 2, NULL, 0);
    check_parts(bytes_of(&dump), 22, 0);
    long_drom(&dump, 2);
    check_parts(bytes_of(&dump), 22, dump.count - 22);
    for (int i = 0; i < 300; i++) {
        uint8_t list[20];
        struct bytes lent = {list, 2 * (random_list(list, sizeof list) / 2)};
        random_drom(&dump);
        check_entries(lent, bytes_of(&dump));
    }
}

/* ---- slices of nothing, with any pointer ---- */

static void check_nothing_to_readers(uint8_t *p, const struct dump *d) {
    uint8_t *records = whole_outcome.records;
    struct drom_report report;
    size_t size = sizeof report;
    struct drom_adapter *l = (void *)p;
    EXPECT(drom_read(p, 0, d->bytes, d->count, records, DROM_ROOM, &report, size), 0);
    EXPECT(drom_read(p, 0, p, 0, records, DROM_ROOM, &report, size), DROM_NO_HEADER);
    EXPECT(drom_read(p, 0, d->bytes, d->count, p, 0, &report, size), DROM_SHORT_RECORDS);
    EXPECT(drom_read(p, 0, d->bytes, d->count, records, DROM_ROOM, p, 0), DROM_LENT_TOO_SHORT);
    EXPECT(drom_read(p, 0, p, 0, p, 0, p, 0), DROM_LENT_TOO_SHORT);
    EXPECT(drom_read_listed(l, 0, d->bytes, d->count, records, DROM_ROOM, &report, size), 0);
    EXPECT(drom_read_listed(l, 0, p, 0, records, DROM_ROOM, &report, size), DROM_NO_HEADER);
    EXPECT(drom_read_listed(l, 0, d->bytes, d->count, p, 0, &report, size), DROM_SHORT_RECORDS);
    EXPECT(drom_read_listed(l, 0, d->bytes, d->count, records, DROM_ROOM, p, 0),
           DROM_LENT_TOO_SHORT);
    EXPECT(drom_read_listed(l, 0, p, 0, p, 0, p, 0), DROM_LENT_TOO_SHORT);
}

static void check_nothing_to_feeding(uint8_t *p, const struct dump *d) {
    uint8_t *records = whole_outcome.records;
    struct drom_report report;
    struct drom_state state;
    size_t size = sizeof state;
    EXPECT(drom_open(p, 0, d->count, p, 0, &state, size), DROM_SHORT_RECORDS);
    EXPECT(drom_open(p, 0, d->count, records, DROM_ROOM, p, 0), DROM_LENT_TOO_SHORT);
    EXPECT(drom_open(p, 0, 0, p, 0, p, 0), DROM_LENT_TOO_SHORT);
    EXPECT(drom_open(p, 0, d->count, records, DROM_ROOM, &state, size), 0);
    EXPECT(drom_feed(&state, size, p, 0, records, DROM_ROOM), 0);
    EXPECT(drom_feed(&state, size, p, 0, p, 0), DROM_SHORT_RECORDS);
    EXPECT(drom_feed(&state, size, d->bytes, d->count, p, 0), DROM_SHORT_RECORDS);
    EXPECT(drom_feed(p, 0, d->bytes, d->count, records, DROM_ROOM), DROM_LENT_TOO_SHORT);
    EXPECT(drom_feed(p, 0, p, 0, p, 0), DROM_LENT_TOO_SHORT);
    EXPECT(drom_finish(p, 0, &report, sizeof report), DROM_LENT_TOO_SHORT);
    EXPECT(drom_finish(&state, size, p, 0), DROM_LENT_TOO_SHORT);
    EXPECT(drom_finish(p, 0, p, 0), DROM_LENT_TOO_SHORT);
    EXPECT(drom_record_count(p, 0), 0);
    EXPECT(drom_record_bytes(p, 0), 0);
}

static void check_nothing_to_parts(uint8_t *p, const struct dump *d) {
    struct drom_part part;
    size_t size = sizeof part;
    check_parts((struct bytes){p, 0}, 0, 0);
    EXPECT(drom_header(d->bytes, d->count, p, 0), DROM_LENT_TOO_SHORT);
    EXPECT(drom_header(p, 0, p, 0), DROM_LENT_TOO_SHORT);
    EXPECT(drom_body(d->bytes, d->count, p, 0), DROM_LENT_TOO_SHORT);
    EXPECT(drom_body(p, 0, p, 0), DROM_LENT_TOO_SHORT);
    EXPECT(drom_whole(d->bytes, d->count, p, 0), DROM_LENT_TOO_SHORT);
    EXPECT(drom_whole(p, 0, p, 0), DROM_LENT_TOO_SHORT);
    EXPECT(drom_entry(p, 0, d->bytes, d->count, 0, &part, size), 0);
    check_part(part, 16, 1);
    EXPECT(drom_entry(p, 0, p, 0, 0, &part, size), 0);
    check_part(part, 0, 0);
    EXPECT(drom_entry(p, 0, d->bytes, d->count, 0, p, 0), DROM_LENT_TOO_SHORT);
    EXPECT(drom_entry(p, 0, p, 0, 0, p, 0), DROM_LENT_TOO_SHORT);
}

static void check_nothing_to_sums(uint8_t *p) {
    uint8_t out[4];
    EXPECT(drom_crc8(p, 0), 0xff);
    EXPECT(drom_crc32(p, 0), 0);
    EXPECT(drom_crc32_more(0x12345678, p, 0), 0x12345678);
    EXPECT(drom_is_utf8(p, 0), 1);
    EXPECT(drom_utf16_ascii(p, 0, out, sizeof out), 0);
    EXPECT(drom_utf16_ascii(p, 0, p, 0), 0);
    EXPECT(drom_utf16_ascii((const uint8_t *)"A", 2, p, 0), DROM_UTF16_NO_ROOM);
    EXPECT(drom_utf16_ascii((const uint8_t *)"A", 1, p, 0), DROM_UTF16_ODD);
}

static void test_nothing(void) {
    uint8_t *const pointers[] = {NULL, (uint8_t *)(uintptr_t)1, (uint8_t *)UINTPTR_MAX};
    struct dump dump;
    small_drom(&dump);
    for (size_t i = 0; i < COUNT_OF(pointers); i++) {
        check_nothing_to_readers(pointers[i], &dump);
        check_nothing_to_feeding(pointers[i], &dump);
        check_nothing_to_parts(pointers[i], &dump);
        check_nothing_to_sums(pointers[i]);
    }
}

/* ---- checksums and texts ---- */

static void test_sums(void) {
    static const struct bytes digits = BYTES("123456789");
    EXPECT(drom_crc8((const uint8_t *)"\xff", 1), 0);
    EXPECT(drom_crc32(digits.at, digits.count), 0xe3069283);
    for (size_t cut = 0; cut <= digits.count; cut++) {
        uint32_t first = drom_crc32_more(DROM_CRC32_START, digits.at, cut);
        uint32_t last = drom_crc32_more(first, digits.at + cut, digits.count - cut);
        EXPECT((uint32_t)~last, 0xe3069283);
    }
}

/* CRC-32C bit by bit, as RFC 3720 defines it: lengths around the library's steps of eight bytes. */
static uint32_t slow_crc32(const uint8_t *bytes, size_t count) {
    uint32_t sum = DROM_CRC32_START;
    for (size_t i = 0; i < count; i++) {
        sum ^= bytes[i];
        for (int bit = 0; bit < 8; bit++)
            sum = sum >> 1 ^ (sum & 1 ? 0x82f63b78 : 0);
    }
    return ~sum;
}

static void test_sums_of_all_lengths(void) {
    uint8_t bytes[300];
    random_bytes(bytes, sizeof bytes);
    for (size_t count = 0; count <= 200; count++)
        for (size_t from = 0; from < 16; from++)
            EXPECT(drom_crc32(bytes + from, count), slow_crc32(bytes + from, count));
}

static void test_utf8(void) {
    EXPECT(drom_is_utf8((const uint8_t *)"Dock 14 \xc2\xb2", 10), 1);
    EXPECT(drom_is_utf8((const uint8_t *)"Dock 14 \xc2", 9), 0);
    EXPECT(drom_is_utf8((const uint8_t *)"\xed\xa0\x80", 3), 0);
    EXPECT(drom_is_utf8((const uint8_t *)"\xf4\x8f\xbf\xbf", 4), 1);
    EXPECT(drom_is_utf8((const uint8_t *)"\xf4\x90\x80\x80", 4), 0);
    EXPECT(drom_is_utf8((const uint8_t *)"\xff", 1), 0);
}

static void check_utf16(struct bytes text, size_t room, size_t answer, const char *shown) {
    struct frame out = frame_of(room);
    EXPECT(drom_utf16_ascii(text.at, text.count, out.at, room), answer);
    size_t count = strlen(shown);
    CHECK(same_bytes(out.at, shown, count));
    CHECK(kept_from(&out, count));
    drop_frame(&out);
}

static void test_utf16(void) {
    static const struct bytes lone = BYTES("\x00\xd8\x41\x00");
    static const struct bytes pair = BYTES("\x3d\xd8\x00\xde");
    static const struct bytes spaced = BYTES("a\0 \0b\0");
    check_utf16(lone, 2, 2, ".A");
    check_utf16(lone, 5, 2, ".A");
    check_utf16(lone, 1, DROM_UTF16_NO_ROOM, "");
    check_utf16(part_of(lone, 0, 3), 0, DROM_UTF16_ODD, "");
    check_utf16(part_of(lone, 0, 2), 1, 1, ".");
    check_utf16(pair, 2, 0, "");
    check_utf16(pair, 1, DROM_UTF16_NO_ROOM, "");
    check_utf16(spaced, 3, 2, "ab");
}

/* ---- dumps from files ---- */

struct sample {
    const char *name;
    uint8_t number;
    size_t offset;
    size_t records;
    int crc32_good;
};

static const struct sample samples[] = {
    {"usb4-dock.bin", 0, 0, 25, 1},
    {"thunderbolt3-dock.bin", 0, 0, 13, 1},
    {"odd-serial.bin", DROM_TEXT_ODD, 118, 16, 1},
    {"zero-length.bin", DROM_ENTRY_ZERO, 77, 4, 1},
    {"stale-crc32.bin", 0, 0, 25, 0},
};

static void check_sample(const char *path, const struct outcome *outcome) {
    const char *slash = strrchr(path, '/');
    const char *name = slash == NULL ? path : slash + 1;
    for (size_t i = 0; i < COUNT_OF(samples); i++) {
        if (strcmp(name, samples[i].name) != 0)
            continue;
        EXPECT(outcome->answer, samples[i].number);
        EXPECT(outcome->report.offset, samples[i].offset);
        EXPECT(outcome->report.records, samples[i].records);
        EXPECT(outcome->report.crc32_good, (uint64_t)samples[i].crc32_good);
    }
}

/* A whole dump, then every beginning of it and every dump with one byte changed. */
static void test_dump(const char *path) {
    static const struct bytes list = BYTES("\x01\x01\x02\x01\x05\x02\x06\x03\x07\x04\x08\x05");
    struct dump dump;
    CHECK(load_dump(&dump, path));
    check_all_ways(no_bytes, bytes_of(&dump));
    check_sample(path, &whole_outcome);
    check_all_ways(list, bytes_of(&dump));
    check_entries(list, bytes_of(&dump));
    for (size_t i = 0; i < dump.count; i++) {
        uint8_t byte = dump.bytes[i];
        check_all_ways(list, part_of(bytes_of(&dump), 0, i));
        dump.bytes[i] = (uint8_t)random_number();
        check_all_ways(list, bytes_of(&dump));
        dump.bytes[i] = byte;
    }
}

int main(int argc, char **argv) {
    test_layout();
    test_examples();
    test_report();
    test_refusals();
    test_sizes();
    test_ways_and_cuts();
    test_overlap_and_alignment();
    test_too_much();
    test_early_finish();
    test_small_buffer_in_the_middle();
    test_refused_openings();
    test_announced_too_large();
    test_any_state();
    test_short_reports();
    test_short_states();
    test_short_parts();
    test_parts();
    test_nothing();
    test_sums();
    test_sums_of_all_lengths();
    test_utf8();
    test_utf16();
    for (int i = 1; i < argc; i++)
        test_dump(argv[i]);
    return checks_verdict("test");
}
