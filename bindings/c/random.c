/*
 * Random and mutated DROMs, lists, states and pieces, from fixed seeds: random [COUNT [DUMP...]].
 *
 * Every slice is lent with exactly its size, in three placements: from the heap, where valgrind
 * sees one byte too far; up to a page that may not be touched; and right behind such a page. With
 * these the machine itself stops a stray access, also one of the library, which no sanitizer
 * instruments. Slices that are only read stand in pages that may not be written. All placements
 * must answer the same.
 */
#define _DEFAULT_SOURCE /* mmap with MAP_ANONYMOUS */
#include "common.h"

#include <sys/mman.h>
#include <unistd.h>

/* ---- memory to lend ---- */

enum placement { IN_HEAP, UP_TO_GUARD, BEHIND_GUARD, PLACEMENTS };

/* One arena each, so that no two slices of a call stand beside each other. */
enum slot { LIST, DROM, RECORDS, REPORT, STATE, PART, SLOTS };

#define ARENA ((size_t)32768) /* whole pages, for the largest slice and its margin */
#define MARGIN 64

static uint8_t *arenas[SLOTS];
static enum placement placement;

/* A debugger shows here what was being done. */
static unsigned long current_case;

static void make_arena(enum slot slot) {
    size_t page = (size_t)sysconf(_SC_PAGESIZE);
    uint8_t *pages = mmap(NULL, ARENA + 2 * page, PROT_NONE, MAP_PRIVATE | MAP_ANONYMOUS, -1, 0);
    if (pages == MAP_FAILED || mprotect(pages + page, ARENA, PROT_READ | PROT_WRITE) != 0) {
        perror("mmap");
        exit(EXIT_FAILURE);
    }
    arenas[slot] = pages + page;
}

struct lent {
    uint8_t *at;
    size_t count;
    enum slot slot;
    int sealed;
};

/* The side of a slice that no guard watches. */
static uint8_t *margin_of(const struct lent *lent) {
    return placement == UP_TO_GUARD ? lent->at - MARGIN : lent->at + lent->count;
}

static void protect(enum slot slot, int access) {
    if (mprotect(arenas[slot], ARENA, access) != 0) {
        perror("mprotect");
        exit(EXIT_FAILURE);
    }
}

static struct lent place(enum slot slot, size_t count) {
    struct lent lent = {NULL, count, slot, 0};
    if (placement == IN_HEAP) {
        lent.at = malloc(count);
        if (lent.at == NULL && count != 0)
            exit(EXIT_FAILURE);
        return lent;
    }
    lent.at = placement == BEHIND_GUARD ? arenas[slot] : arenas[slot] + ARENA - count;
    memset(margin_of(&lent), LENT, MARGIN);
    return lent;
}

/* A slice that the next calls may only read, until it is unsealed. */
static void seal(struct lent *lent) {
    lent->sealed = 1;
    if (placement != IN_HEAP)
        protect(lent->slot, PROT_READ);
}

static void unseal(struct lent *lent) {
    lent->sealed = 0;
    if (placement != IN_HEAP)
        protect(lent->slot, PROT_READ | PROT_WRITE);
}

static struct lent lend_sealed(enum slot slot, const void *content, size_t count) {
    struct lent lent = place(slot, count);
    copy_bytes(lent.at, content, count);
    seal(&lent);
    return lent;
}

/* A slice that is written. From the heap it comes as it is: nobody may go by what stands in it. */
static struct lent lend_blank(enum slot slot, size_t count) {
    struct lent lent = place(slot, count);
    if (placement != IN_HEAP)
        fill_bytes(lent.at, LENT, count);
    return lent;
}

static struct lent lend_filled(enum slot slot, const void *content, size_t count) {
    struct lent lent = place(slot, count);
    copy_bytes(lent.at, content, count);
    return lent;
}

static void take_back(struct lent *lent) {
    if (placement == IN_HEAP) {
        free(lent->at);
        return;
    }
    CHECK(all_bytes(margin_of(lent), MARGIN, LENT));
    if (lent->sealed)
        unseal(lent);
}

/* ---- what was answered and written, as one number ---- */

static uint64_t noted;
static unsigned long calls;

static void note(const uint8_t *bytes, size_t count) {
    for (size_t i = 0; i < count; i++)
        noted = (noted ^ bytes[i]) * UINT64_C(0x100000001b3);
}

static uint64_t answered(uint64_t answer) {
    uint8_t bytes[8];
    put_number(bytes, sizeof bytes, answer);
    note(bytes, sizeof bytes);
    calls++;
    return answer;
}

/* Of a slice, `written` bytes at the front were written and no others. */
static void note_written(const struct lent *lent, size_t written) {
    CHECK(written <= lent->count);
    if (written > lent->count)
        return;
    note(lent->at, written);
    if (placement != IN_HEAP)
        CHECK(all_bytes(lent->at + written, lent->count - written, LENT));
}

/* ---- a case ---- */

struct test_case {
    uint8_t list[300];
    size_t list_count;
    struct dump dump;
    size_t room;
    size_t report_count;
    size_t state_count;
    size_t part_count;
    uint8_t state[DROM_STATE + 8];
};

static struct dump *given;
static size_t given_count;

/* Any of the sizes around the one that is asked for, and mostly that one. */
static size_t around(size_t size) {
    if (random_below(8) != 0)
        return size;
    return random_below(2) == 0 ? random_below(size + 1) : size - 1 + random_below(4);
}

static void mutate(uint8_t *bytes, size_t count) {
    static const uint8_t values[] = {0, 1, 2, 0x7f, 0x80, 0xff};
    for (size_t i = random_below(6); i > 0 && count > 0; i--) {
        uint8_t any = (uint8_t)random_number();
        bytes[random_below(count)] =
            random_below(2) == 0 ? any : values[random_below(sizeof values)];
    }
}

static void make_dump(struct dump *dump) {
    if (given_count > 0 && random_below(4) == 0)
        *dump = given[random_below(given_count)];
    else
        random_drom(dump);
    if (random_below(2) == 0)
        mutate(dump->bytes, dump->count);
    if (random_below(6) == 0) {
        dump->count = random_below(random_below(3) == 0 ? sizeof dump->bytes + 1 : 60);
        random_bytes(dump->bytes, dump->count);
        dump->bytes[13] = (uint8_t)random_below(5);
    }
    /* With a right length most DROMs get past the header. */
    if (dump->count >= 16 && random_below(8) != 0)
        put_number(dump->bytes + 14, 2, dump->count - 13);
}

static void make_state(struct test_case *c) {
    static const uint64_t borders[] = {
        0, 1, 15, 16, 22, 254, 255, 4108, 4109, 16364, 16368, UINT64_MAX - 1, UINT64_MAX};
    static uint8_t records[DROM_ROOM];
    random_bytes(c->state, sizeof c->state);
    if (random_below(4) == 0)
        return;
    drom_open(c->list, c->list_count, c->dump.count, records, DROM_ROOM, c->state, DROM_STATE);
    drom_feed(c->state, DROM_STATE, c->dump.bytes, random_below(c->dump.count + 1), records,
              DROM_ROOM);
    mutate(c->state, random_below(2) == 0 ? 53 : DROM_STATE);
    for (size_t i = random_below(4); i > 0; i--)
        put_number(c->state + 8 * random_below(6), 8, borders[random_below(COUNT_OF(borders))]);
}

static void make_case(struct test_case *c) {
    c->list_count = random_list(c->list, random_below(10) == 0 ? sizeof c->list : 20);
    if (random_below(4) != 0)
        c->list_count -= c->list_count % 2;
    make_dump(&c->dump);
    c->room = around(DROM_ROOM);
    c->report_count = around(DROM_REPORT);
    c->state_count = around(DROM_STATE);
    c->part_count = around(DROM_PART);
    make_state(c);
}

/* ---- reading ---- */

static uint8_t whole_records[DROM_ROOM];
static struct drom_report whole_report;

static int lent_enough(const struct test_case *c) {
    return c->report_count >= DROM_REPORT && c->room >= DROM_ROOM;
}

/* Notes a report, and hands back how many bytes of records it counts. */
static size_t note_report(const struct lent *report, uint64_t answer, struct drom_report *told) {
    *told = refused_report(answer);
    if (report->count < DROM_REPORT) {
        EXPECT(answer, DROM_LENT_TOO_SHORT);
        note_written(report, 0);
        return 0;
    }
    memcpy(told, report->at, sizeof *told);
    EXPECT(answer, told->number);
    note_written(report, DROM_REPORT);
    return (size_t)told->bytes;
}

static void run_read(const struct test_case *c) {
    struct lent list = lend_sealed(LIST, c->list, c->list_count);
    struct lent drom = lend_sealed(DROM, c->dump.bytes, c->dump.count);
    struct lent records = lend_blank(RECORDS, c->room);
    struct lent report = lend_blank(REPORT, c->report_count);
    uint64_t answer = answered(drom_read(list.at, list.count, drom.at, drom.count, records.at,
                                         records.count, report.at, report.count));
    size_t bytes = note_report(&report, answer, &whole_report);
    CHECK(answer <= DROM_TEXT_ODD || report.count < DROM_REPORT);
    note_written(&records, bytes);
    copy_bytes(whole_records, records.at, bytes);
    take_back(&list);
    take_back(&drom);
    take_back(&records);
    take_back(&report);
}

/* The same by structs, where the list has an even count. */
static void run_listed(const struct test_case *c) {
    struct lent list = lend_sealed(LIST, c->list, c->list_count - c->list_count % 2);
    struct lent drom = lend_sealed(DROM, c->dump.bytes, c->dump.count);
    struct lent records = lend_blank(RECORDS, c->room);
    struct lent report = lend_blank(REPORT, c->report_count);
    struct drom_report told;
    uint64_t answer = answered(drom_read_listed((const struct drom_adapter *)(void *)list.at,
                                                list.count / 2, drom.at, drom.count, records.at,
                                                records.count, report.at, report.count));
    size_t bytes = note_report(&report, answer, &told);
    note_written(&records, bytes);
    if (c->list_count % 2 == 0) {
        CHECK(same_report(&told, &whole_report));
        CHECK(same_bytes(records.at, whole_records, bytes));
    }
    take_back(&list);
    take_back(&drom);
    take_back(&records);
    take_back(&report);
}

/* ---- feeding ---- */

static size_t run_state_numbers(struct lent *state) {
    seal(state);
    answered(drom_record_count(state->at, state->count));
    size_t bytes = (size_t)answered(drom_record_bytes(state->at, state->count));
    unseal(state);
    return bytes;
}

static uint64_t run_finish(struct lent *state, size_t report_count, struct drom_report *told) {
    struct lent report = lend_blank(REPORT, report_count);
    seal(state);
    uint64_t answer = answered(drom_finish(state->at, state->count, report.at, report.count));
    unseal(state);
    if (state->count < DROM_STATE)
        note_written(&report, 0);
    else
        note_report(&report, answer, told);
    take_back(&report);
    return answer;
}

static uint64_t run_open(const struct test_case *c, struct lent *records,
                         const struct lent *state) {
    struct lent list = lend_sealed(LIST, c->list, c->list_count);
    seal(records);
    uint64_t answer = answered(drom_open(list.at, list.count, c->dump.count, records->at,
                                         records->count, state->at, state->count));
    unseal(records);
    take_back(&list);
    return answer;
}

static void run_piece(const struct lent *records, struct lent *state, const uint8_t *bytes,
                      size_t count, uint8_t expected) {
    struct lent piece = lend_sealed(DROM, bytes, count);
    uint64_t answer = answered(
        drom_feed(state->at, state->count, piece.at, piece.count, records->at, records->count));
    take_back(&piece);
    EXPECT(answer, expected);
    note_written(records, run_state_numbers(state));
    note(state->at, DROM_STATE);
}

/* Pieces of any size, empty ones and ones that go too far among them. */
static void run_pieces(const struct test_case *c, const struct lent *records, struct lent *state) {
    size_t usual = 1 + random_below(random_below(3) == 0 ? 300 : 30);
    for (size_t at = 0; at < c->dump.count;) {
        size_t left = c->dump.count - at;
        size_t count = random_below(usual + 1);
        count = count < left ? count : left;
        run_piece(records, state, c->dump.bytes + at, count, 0);
        at += count;
        left -= count;
        if (left < c->dump.count && random_below(20) == 0)
            run_piece(records, state, c->dump.bytes, left + 1, DROM_FED_BEYOND);
    }
}

static void run_feeding(const struct test_case *c) {
    struct lent records = lend_blank(RECORDS, c->room);
    struct lent state = lend_blank(STATE, c->state_count);
    struct drom_report told;
    uint64_t opened = run_open(c, &records, &state);
    note_written(&state, state.count < DROM_STATE ? 0 : DROM_STATE);
    if (opened == 0)
        run_pieces(c, &records, &state);
    uint64_t answer = run_finish(&state, c->report_count, &told);
    note_written(&records, run_state_numbers(&state));
    if (lent_enough(c) && state.count >= DROM_STATE) {
        EXPECT(answer, whole_report.number);
        CHECK(same_report(&told, &whole_report));
        CHECK(same_bytes(records.at, whole_records, (size_t)told.bytes));
    }
    take_back(&records);
    take_back(&state);
}

/* A state of bytes that nobody left there, and any piece. */
static void run_state(const struct test_case *c) {
    struct lent records =
        lend_filled(RECORDS, whole_records, c->room < DROM_ROOM ? c->room : DROM_ROOM);
    struct lent state = lend_filled(STATE, c->state, c->state_count);
    struct lent piece = lend_sealed(DROM, c->dump.bytes, random_below(c->dump.count + 1));
    struct drom_report told;
    uint64_t answer = answered(
        drom_feed(state.at, state.count, piece.at, piece.count, records.at, records.count));
    CHECK(answer == 0 || answer == DROM_STATE_OUTSIDE || answer == DROM_SHORT_RECORDS ||
          answer == DROM_FED_BEYOND || state.count < DROM_STATE);
    CHECK(answer == 0 || same_bytes(state.at, c->state, state.count));
    CHECK(answer == 0 || same_bytes(records.at, whole_records, records.count));
    note(state.at, state.count);
    note(records.at, records.count);
    run_finish(&state, c->report_count, &told);
    run_state_numbers(&state);
    take_back(&records);
    take_back(&state);
    take_back(&piece);
}

/* ---- parts, checksums and texts ---- */

typedef uint8_t part_call(const uint8_t *drom, size_t drom_count, void *part, size_t part_count);

static void note_part(const struct lent *part, uint64_t answer, size_t count) {
    struct drom_part told = {0, 0};
    EXPECT(answer, part->count < DROM_PART ? DROM_LENT_TOO_SHORT : 0);
    note_written(part, part->count < DROM_PART ? 0 : DROM_PART);
    if (part->count >= DROM_PART)
        memcpy(&told, part->at, sizeof told);
    CHECK(told.offset <= count && told.length <= count - told.offset);
}

static void run_parts(const struct test_case *c) {
    static part_call *const part_calls[] = {drom_header, drom_body, drom_whole};
    struct lent drom = lend_sealed(DROM, c->dump.bytes, c->dump.count);
    for (size_t i = 0; i < COUNT_OF(part_calls); i++) {
        struct lent part = lend_blank(PART, c->part_count);
        note_part(&part, answered(part_calls[i](drom.at, drom.count, part.at, part.count)),
                  drom.count);
        take_back(&part);
    }
    take_back(&drom);
}

static void run_entry(const struct test_case *c) {
    struct lent list = lend_sealed(LIST, c->list, c->list_count);
    struct lent drom = lend_sealed(DROM, c->dump.bytes, c->dump.count);
    struct lent part = lend_blank(PART, c->part_count);
    size_t n = random_below(10) == 0 ? SIZE_MAX : random_below((size_t)whole_report.records + 2);
    uint64_t answer =
        answered(drom_entry(list.at, list.count, drom.at, drom.count, n, part.at, part.count));
    note_part(&part, answer, drom.count);
    take_back(&list);
    take_back(&drom);
    take_back(&part);
}

static void run_texts(const struct test_case *c) {
    struct lent text = lend_sealed(DROM, c->dump.bytes, random_below(c->dump.count + 1));
    struct lent out = lend_blank(PART, around(text.count / 2 + 1));
    answered(drom_crc8(text.at, text.count));
    uint64_t sum = answered(drom_crc32(text.at, text.count));
    EXPECT((uint32_t)~answered(drom_crc32_more(DROM_CRC32_START, text.at, text.count)), sum);
    CHECK(answered(drom_is_utf8(text.at, text.count)) <= 1);
    uint64_t count = answered(drom_utf16_ascii(text.at, text.count, out.at, out.count));
    EXPECT(count == DROM_UTF16_ODD, text.count % 2);
    note_written(&out, count >= DROM_UTF16_NO_ROOM ? 0 : (size_t)count);
    take_back(&text);
    take_back(&out);
}

/* ---- all cases ---- */

static uint64_t run_placed(const struct test_case *c, uint64_t seed) {
    noted = UINT64_C(0xcbf29ce484222325);
    random_seed(seed);
    run_read(c);
    run_listed(c);
    run_feeding(c);
    run_state(c);
    run_parts(c);
    run_entry(c);
    run_texts(c);
    return noted;
}

static void run_case(void) {
    static struct test_case c;
    random_seed(current_case);
    make_case(&c);
    memset(whole_records, LENT, sizeof whole_records);
    placement = IN_HEAP;
    uint64_t first = run_placed(&c, current_case);
    for (int other = UP_TO_GUARD; other < PLACEMENTS; other++) {
        memset(whole_records, LENT, sizeof whole_records);
        placement = (enum placement)other;
        EXPECT(run_placed(&c, current_case), first);
    }
}

static void load_dumps(int count, char **paths) {
    given = malloc((size_t)count * sizeof *given + 1);
    for (int i = 0; i < count; i++)
        if (given == NULL || !load_dump(&given[given_count++], paths[i]))
            exit(EXIT_FAILURE);
}

int main(int argc, char **argv) {
    unsigned long count = argc > 1 ? strtoul(argv[1], NULL, 10) : 1000;
    if (count == 0) {
        fprintf(stderr, "usage: random [COUNT [DUMP...]]\n");
        return EXIT_FAILURE;
    }
    load_dumps(argc > 2 ? argc - 2 : 0, argv + 2);
    for (int slot = 0; slot < SLOTS; slot++)
        make_arena((enum slot)slot);
    for (current_case = 0; current_case < count && checks_failed < 20; current_case++)
        run_case();
    free(given);
    printf("random: %lu cases in %d placements, %lu calls\n", current_case, PLACEMENTS, calls);
    return checks_verdict("random");
}
