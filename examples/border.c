// Tests of the border between C and the archive: what the header's names mean, records, flags, lengths, NULLs, refusals that leave all as it was, and parts inside
// the lent space.
// Prints how many tests there were and ends with 0, or prints what failed and ends with 1.

#include "cintrok.h"

#include <inttypes.h>
#include <stdio.h>
#include <string.h>

static unsigned tests, failures;

static void expect(bool holds, const char *what, int line)
{
    tests++;
    if (!holds) {
        failures++;
        printf("border.c:%d: %s\n", line, what);
    }
}

#define EXPECT(what) expect((what), #what, __LINE__)

// ---- a sheet of two triangles on a square

static const double vertices[] = {0, 0, 2, 0, 2, 2, -0.0, 2};
static const uint32_t triangles[] = {0, 1, 2, 0, 2, 3};
static const int32_t neighbours[] = {-1, -1, 1, 0, -1, -1};
static const uint8_t tags[] = {CINTROK_TAG_INNER, CINTROK_TAG_OUTER, CINTROK_TAG_NONE, CINTROK_TAG_NONE};
enum { N = 4, T = 2, LIMIT = 50, ROOM = 40, SHEET_BYTES = 256 };

static cintrok_settings all_settings(void)
{
    cintrok_settings settings = {true, true, true, true, true, true, LIMIT, 1e-9, 0.25, 0.5, 0.25, ROOM};
    return settings;
}

static uint32_t write_square(const cintrok_settings *settings, uint8_t *out, size_t out_count, size_t *written)
{
    return cintrok_write_sheet(vertices, N, triangles, T, neighbours, tags, settings, out, out_count, written);
}

typedef struct {
    uint8_t bytes[SHEET_BYTES];
    size_t count;
} Sheet;

static Sheet square(void)
{
    Sheet sheet;
    cintrok_settings settings = all_settings();
    memset(&sheet, 0, sizeof sheet);
    EXPECT(write_square(&settings, sheet.bytes, sizeof sheet.bytes, &sheet.count) == 0);
    return sheet;
}

static cintrok_sheet check(const Sheet *sheet)
{
    cintrok_sheet checked;
    memset(&checked, 0, sizeof checked);
    EXPECT(cintrok_check(sheet->bytes, sheet->count, &checked) == 0);
    return checked;
}

// ---- a run with more memory in front of each lent buffer and behind it, so that a place written outside shows

enum { FRONT = 8 };

typedef struct {
    double floats[FRONT + 200];
    double path[FRONT + 100];
    uint32_t words[FRONT + 200];
    cintrok_run run;
    cintrok_sheet checked;
    double number;
    const double *values;
    size_t count;
} Work;

static cintrok_space needed(void)
{
    cintrok_space space = {NULL, 0, NULL, 0, NULL, 0};
    EXPECT(cintrok_space_needed(N, T, LIMIT, ROOM, &space) == 0);
    return space;
}

static cintrok_space lend(Work *work)
{
    cintrok_space space = needed();
    EXPECT(space.floats_count + 10 < 200 && space.words_count + 10 < 200 && space.path_count + 10 < 100);
    space.floats = work->floats + FRONT;
    space.words = work->words + FRONT;
    space.path = work->path + FRONT;
    return space;
}

// Memory is filled with a signalling NaN at each place of a double, which is another one as soon as it is loaded and stored as a number.
static unsigned char filling(const unsigned char *place)
{
    static const uint64_t bits = UINT64_C(0x7ff4000000000001);
    return ((const unsigned char *)&bits)[(uintptr_t)place % sizeof bits];
}

static void fill(void *places, size_t bytes)
{
    unsigned char *byte = (unsigned char *)places;
    for (size_t i = 0; i < bytes; i++) {
        byte[i] = filling(byte + i);
    }
}

static bool is_filled(const void *places, size_t bytes)
{
    const unsigned char *byte = (const unsigned char *)places;
    size_t i = 0;
    while (i < bytes && byte[i] == filling(byte + i)) {
        i++;
    }
    return i == bytes;
}

static bool is_untouched_around(const Work *work)
{
    cintrok_space space = needed();
    size_t floats = FRONT + space.floats_count, words = FRONT + space.words_count, path = FRONT + space.path_count;
    return is_filled(work->floats, FRONT * sizeof(double)) && is_filled(work->floats + floats, sizeof work->floats - floats * sizeof(double))
        && is_filled(work->words, FRONT * sizeof(uint32_t)) && is_filled(work->words + words, sizeof work->words - words * sizeof(uint32_t))
        && is_filled(work->path, FRONT * sizeof(double)) && is_filled(work->path + path, sizeof work->path - path * sizeof(double));
}

static void open_square(Work *work)
{
    Sheet sheet = square();
    cintrok_space space;
    fill(work, sizeof *work);
    space = lend(work);
    EXPECT(cintrok_open(sheet.bytes, sheet.count, &space, &work->run) == 0);
    EXPECT(is_untouched_around(work));
}

// ---- calls by number

enum { ADVANCE, BACK, MARK, RETURN, LENGTH, CALLS };

static uint32_t call(int which, Work *work, const cintrok_space *space)
{
    switch (which) {
    case ADVANCE: return cintrok_advance(&work->run, 1, space);
    case BACK: return cintrok_back(&work->run, 1, space);
    case MARK: return cintrok_mark(&work->run, space);
    case RETURN: return cintrok_return(&work->run, space);
    default: return cintrok_length(&work->run, space, &work->number);
    }
}

// No double decides about a refusal, so each is a signalling NaN meanwhile.
static void expect_refused(int which, Work *work, const cintrok_space *space, uint32_t number)
{
    Work kept, before;
    memcpy(&kept, work, sizeof kept);
    fill(work->run.reals, sizeof work->run.reals);
    fill(work->floats, sizeof work->floats);
    fill(work->path, sizeof work->path);
    memcpy(&before, work, sizeof before);
    EXPECT(call(which, work, space) == number);
    EXPECT(memcmp(&before, work, sizeof before) == 0);
    memcpy(work, &kept, sizeof kept);
}

static void expect_all_refused(Work *work, const cintrok_space *space, uint32_t number)
{
    for (int which = 0; which < CALLS; which++) {
        expect_refused(which, work, space, number);
    }
}

// Calls with `length` of the record's whole numbers and `reals` of its reals.
static uint32_t raw_call(int which, Work *work, const cintrok_space *s, size_t length, size_t reals)
{
    cintrok_run *run = &work->run;
    switch (which) {
    case ADVANCE:
        return cintrok_raw_advance(1, s->floats, s->floats_count, s->words, s->words_count, s->path, s->path_count, run->wholes, length, run->reals, reals);
    case BACK:
        return cintrok_raw_back(1, s->floats, s->floats_count, s->words, s->words_count, s->path, s->path_count, run->wholes, length, run->reals, reals);
    case MARK:
        return cintrok_raw_mark(s->floats, s->floats_count, s->words, s->words_count, s->path, s->path_count, run->wholes, length, run->reals, reals);
    case RETURN:
        return cintrok_raw_return(s->floats, s->floats_count, s->words, s->words_count, s->path, s->path_count, run->wholes, length, run->reals, reals);
    default:
        return cintrok_raw_length(s->floats, s->floats_count, s->words, s->words_count, s->path, s->path_count, run->wholes, length, run->reals, reals, &work->number, 1);
    }
}

// ---- sheets

static bool same_settings(const cintrok_settings *a, const cintrok_settings *b)
{
    return a->has_limit == b->has_limit && a->has_tolerance == b->has_tolerance && a->has_step == b->has_step && a->has_start_x == b->has_start_x
        && a->has_start_y == b->has_start_y && a->has_room == b->has_room && (!a->has_limit || a->limit == b->limit)
        && (!a->has_tolerance || a->tolerance == b->tolerance) && a->step == b->step
        && (!a->has_start_x || (a->start_x == b->start_x && a->start_y == b->start_y)) && a->room == b->room;
}

static void test_items(const Sheet *sheet, const cintrok_sheet *checked)
{
    for (size_t i = 0; i < N; i++) {
        double point[2] = {7, 7};
        uint8_t tag = 7;
        EXPECT(cintrok_vertex(sheet->bytes, sheet->count, checked, i, &point[0], &point[1]) == 0);
        EXPECT(memcmp(point, vertices + 2 * i, sizeof point) == 0);
        EXPECT(cintrok_tag(sheet->bytes, sheet->count, checked, i, &tag) == 0 && tag == tags[i]);
    }
    for (size_t i = 0; i < T; i++) {
        uint32_t corners[3] = {7, 7, 7};
        EXPECT(cintrok_corners(sheet->bytes, sheet->count, checked, i, corners) == 0);
        EXPECT(memcmp(corners, triangles + 3 * i, sizeof corners) == 0);
        for (size_t edge = 0; edge < 3; edge++) {
            int32_t neighbour = 7;
            EXPECT(cintrok_neighbour(sheet->bytes, sheet->count, checked, i, edge, &neighbour) == 0 && neighbour == neighbours[3 * i + edge]);
        }
    }
}

// With and without each setting that may be absent.
static void test_round_trip(void)
{
    for (int given = 0; given < 8; given++) {
        cintrok_settings settings = all_settings();
        Sheet sheet = square();
        cintrok_sheet checked;
        settings.has_limit = (given & 1) != 0;
        settings.has_tolerance = (given & 2) != 0;
        settings.has_start_x = settings.has_start_y = (given & 4) != 0;
        EXPECT(write_square(&settings, sheet.bytes, sizeof sheet.bytes, &sheet.count) == 0);
        checked = check(&sheet);
        EXPECT(checked.n == N && checked.t == T && same_settings(&checked.settings, &settings));
        EXPECT(settings.has_limit || checked.settings.limit == 0);
        EXPECT(settings.has_tolerance || checked.settings.tolerance == 0);
        test_items(&sheet, &checked);
    }
}

static void test_missing_items(void)
{
    Sheet sheet = square();
    cintrok_sheet checked = check(&sheet);
    double x = 7, y = 8;
    uint32_t corners[3] = {7, 8, 9};
    int32_t neighbour = 7;
    uint8_t tag = 7;
    EXPECT(cintrok_vertex(sheet.bytes, sheet.count, &checked, N, &x, &y) == CINTROK_REFUSED_RECORD);
    EXPECT(cintrok_vertex(sheet.bytes, checked.vertices_at + 15, &checked, 0, &x, &y) == CINTROK_REFUSED_LENGTH);
    EXPECT(cintrok_vertex(NULL, sheet.count, &checked, 0, &x, &y) == CINTROK_REFUSED_LENGTH);
    EXPECT(cintrok_corners(sheet.bytes, sheet.count, &checked, T, corners) == CINTROK_REFUSED_RECORD);
    EXPECT(cintrok_corners(sheet.bytes, checked.triangles_at - 1, &checked, 0, corners) == CINTROK_REFUSED_LENGTH);
    EXPECT(cintrok_neighbour(sheet.bytes, sheet.count, &checked, T, 0, &neighbour) == CINTROK_REFUSED_RECORD);
    EXPECT(cintrok_neighbour(sheet.bytes, sheet.count, &checked, 0, 3, &neighbour) == CINTROK_REFUSED_RECORD);
    EXPECT(cintrok_tag(sheet.bytes, sheet.count, &checked, N, &tag) == CINTROK_REFUSED_RECORD);
    EXPECT(cintrok_tag(sheet.bytes, checked.tags_at, &checked, 0, &tag) == CINTROK_REFUSED_LENGTH);
    EXPECT(x == 7 && y == 8 && corners[0] == 7 && corners[1] == 8 && corners[2] == 9 && neighbour == 7 && tag == 7);
}

static void test_check_refusals(void)
{
    Sheet sheet = square();
    Work work, before;
    fill(&work, sizeof work);
    memcpy(&before, &work, sizeof before);
    for (size_t count = 0; count < sheet.count; count++) {
        cintrok_space space = lend(&work);
        EXPECT(cintrok_check(sheet.bytes, count, &work.checked) == CINTROK_REFUSED_LENGTH);
        EXPECT(cintrok_open(sheet.bytes, count, &space, &work.run) == CINTROK_REFUSED_LENGTH);
    }
    EXPECT(cintrok_check(sheet.bytes, sheet.count + 1, &work.checked) == CINTROK_REFUSED_LENGTH);
    EXPECT(cintrok_check(NULL, 0, &work.checked) == CINTROK_REFUSED_LENGTH);
    EXPECT(cintrok_check(NULL, 1000, &work.checked) == CINTROK_REFUSED_LENGTH);
    EXPECT(memcmp(&before, &work, sizeof before) == 0);
}

static void test_short_write(void)
{
    Sheet whole = square(), sheet, before;
    cintrok_settings settings = all_settings();
    fill(&sheet, sizeof sheet);
    memcpy(&before, &sheet, sizeof before);
    for (size_t count = 0; count < whole.count; count++) {
        EXPECT(write_square(&settings, sheet.bytes, count, &sheet.count) == CINTROK_REFUSED_SPACE);
    }
    EXPECT(write_square(&settings, NULL, 0, &sheet.count) == CINTROK_REFUSED_SPACE);
    EXPECT(write_square(&settings, NULL, 1000, &sheet.count) == CINTROK_REFUSED_SPACE);
    EXPECT(memcmp(&before, &sheet, sizeof before) == 0);
    EXPECT(write_square(&settings, sheet.bytes, whole.count, &sheet.count) == 0 && sheet.count == whole.count);
    EXPECT(memcmp(sheet.bytes, whole.bytes, whole.count) == 0);
    EXPECT(memcmp(sheet.bytes + whole.count, before.bytes + whole.count, sizeof sheet.bytes - whole.count) == 0);
}

static void expect_unwritten(const cintrok_settings *settings, uint32_t number)
{
    Sheet sheet, before;
    fill(&sheet, sizeof sheet);
    memcpy(&before, &sheet, sizeof before);
    EXPECT(write_square(settings, sheet.bytes, sizeof sheet.bytes, &sheet.count) == number);
    EXPECT(memcmp(&before, &sheet, sizeof before) == 0);
}

static void test_wrong_settings(void)
{
    cintrok_settings settings = all_settings();
    settings.has_step = false;
    expect_unwritten(&settings, CINTROK_REFUSED_SETTING);
    settings = all_settings();
    settings.has_room = false;
    expect_unwritten(&settings, CINTROK_REFUSED_SETTING);
    settings = all_settings();
    settings.has_start_y = false;
    expect_unwritten(&settings, CINTROK_REFUSED_SETTING);
    settings = all_settings();
    settings.limit = CINTROK_MAX_LIMIT + 1;
    expect_unwritten(&settings, CINTROK_REFUSED_RANGE);
    settings = all_settings();
    settings.room = 0;
    expect_unwritten(&settings, CINTROK_REFUSED_RANGE);
    settings = all_settings();
    settings.step = -0.0;
    expect_unwritten(&settings, CINTROK_REFUSED_RANGE);
    settings = all_settings();
    settings.start_x = 2 * CINTROK_MAX_COORDINATE;
    expect_unwritten(&settings, CINTROK_REFUSED_RANGE);
    settings = all_settings();
    memset(&settings.tolerance, 0xff, sizeof settings.tolerance);
    expect_unwritten(&settings, CINTROK_REFUSED_NAN);
}

static void test_wrong_lists(void)
{
    static double many_vertices[2 * (CINTROK_MAX_VERTICES + 1)];
    static uint8_t many_tags[CINTROK_MAX_VERTICES + 1];
    static uint32_t many_triangles[3 * (CINTROK_MAX_TRIANGLES + 1)];
    static int32_t many_neighbours[3 * (CINTROK_MAX_TRIANGLES + 1)];
    static uint8_t out[CINTROK_MAX_SHEET_BYTES];
    static const uint32_t wrong_corner[] = {0, 1, 2, 0, 2, 4};
    static const int32_t wrong_neighbour[] = {-2, -1, 1, 0, -1, -1};
    cintrok_settings settings = all_settings();
    size_t written = 7;
    const size_t most = CINTROK_MAX_VERTICES, most_triangles = CINTROK_MAX_TRIANGLES;
    EXPECT(cintrok_write_sheet(many_vertices, most + 1, NULL, 0, NULL, many_tags, &settings, out, sizeof out, &written) == CINTROK_REFUSED_COUNT);
    EXPECT(cintrok_write_sheet(vertices, N, many_triangles, most_triangles + 1, many_neighbours, tags, &settings, out, sizeof out, &written) == CINTROK_REFUSED_COUNT);
    EXPECT(cintrok_write_sheet(vertices, N, wrong_corner, T, neighbours, tags, &settings, out, sizeof out, &written) == CINTROK_REFUSED_OUTSIDE);
    EXPECT(cintrok_write_sheet(vertices, N, triangles, T, wrong_neighbour, tags, &settings, out, sizeof out, &written) == CINTROK_REFUSED_OUTSIDE);
    EXPECT(cintrok_write_sheet(NULL, N, triangles, T, neighbours, tags, &settings, out, sizeof out, &written) == CINTROK_REFUSED_UNEVEN);
    EXPECT(cintrok_write_sheet(vertices, N, triangles, T, NULL, tags, &settings, out, sizeof out, &written) == CINTROK_REFUSED_UNEVEN);
    EXPECT(written == 7 && out[0] == 0 && memcmp(out, out + 1, sizeof out - 1) == 0);
    // the largest sheet
    EXPECT(cintrok_write_sheet(many_vertices, most, many_triangles, most_triangles, many_neighbours, many_tags, &settings, out, sizeof out, &written) == 0);
    EXPECT(written == CINTROK_MAX_SHEET_BYTES);
}

// ---- space

static void test_space_needed(void)
{
    cintrok_space space = needed(), before;
    EXPECT(space.floats == NULL && space.words == NULL && space.path == NULL);
    EXPECT(space.floats_count == 12 * N + 12 * T + LIMIT + 32 && space.words_count == 8 * N + 32 * T + 32 && space.path_count == 2 * ROOM);
    fill(&space, sizeof space);
    memcpy(&before, &space, sizeof before);
    EXPECT(cintrok_space_needed(CINTROK_MAX_VERTICES + 1, T, LIMIT, ROOM, &space) == CINTROK_REFUSED_COUNT);
    EXPECT(cintrok_space_needed(N, CINTROK_MAX_TRIANGLES + 1, LIMIT, ROOM, &space) == CINTROK_REFUSED_COUNT);
    EXPECT(cintrok_space_needed(UINT64_MAX, UINT64_MAX, LIMIT, ROOM, &space) == CINTROK_REFUSED_COUNT);
    EXPECT(cintrok_space_needed(N, T, CINTROK_MAX_LIMIT + 1, ROOM, &space) == CINTROK_REFUSED_RANGE);
    EXPECT(cintrok_space_needed(N, T, LIMIT, 0, &space) == CINTROK_REFUSED_RANGE);
    EXPECT(cintrok_space_needed(N, T, LIMIT, CINTROK_MAX_ROOM + 1, &space) == CINTROK_REFUSED_RANGE);
    EXPECT(memcmp(&before, &space, sizeof before) == 0);
    EXPECT(cintrok_space_needed(CINTROK_MAX_VERTICES, CINTROK_MAX_TRIANGLES, CINTROK_MAX_LIMIT, CINTROK_MAX_ROOM, &space) == 0);
    EXPECT(space.floats_count == 247488 && space.words_count == 294944 && space.path_count == 2000000);
}

// One place too few in one buffer, or no buffer at all.
static cintrok_space short_space(Work *work, int which)
{
    cintrok_space space = lend(work);
    space.floats_count -= which == 0;
    space.words_count -= which == 1;
    space.path_count -= which == 2;
    space.floats = which == 3 ? NULL : space.floats;
    space.words = which == 4 ? NULL : space.words;
    space.path = which == 5 ? NULL : space.path;
    return space;
}

static void test_short_space(void)
{
    Sheet sheet = square();
    Work work, before;
    for (int which = 0; which < 6; which++) {
        fill(&work, sizeof work);
        memcpy(&before, &work, sizeof before);
        cintrok_space space = short_space(&work, which);
        EXPECT(cintrok_open(sheet.bytes, sheet.count, &space, &work.run) == CINTROK_REFUSED_SPACE);
        EXPECT(memcmp(&before, &work, sizeof before) == 0);
        open_square(&work);
        space = short_space(&work, which);
        expect_all_refused(&work, &space, CINTROK_REFUSED_SPACE);
    }
}

// ---- records

static void test_flags(void)
{
    static const int flags[] = {4, 13};
    static const uint64_t wrong[] = {2, 7, 256, UINT64_C(1) << 32, UINT64_MAX};
    Work work;
    for (uint32_t place = 0; place < 6; place++) {
        open_square(&work);
        cintrok_space space = lend(&work);
        EXPECT(cintrok_mark(&work.run, &space) == 0 && cintrok_advance(&work.run, place, &space) == 0);
        for (size_t i = 0; i < 10; i++) {
            uint64_t *flag = &work.run.wholes[flags[i % 2]];
            uint64_t right = *flag;
            *flag = wrong[i / 2];
            expect_all_refused(&work, &space, CINTROK_REFUSED_RECORD);
            *flag = right;
        }
        EXPECT(cintrok_return(&work.run, &space) == 0 && cintrok_place(&work.run) == 0);
    }
}

// n, t, limit and room come before short space, the other numbers after it.
static void test_altered_records(void)
{
    Work work;
    open_square(&work);
    cintrok_space space = lend(&work);
    cintrok_space little = short_space(&work, 0);
    EXPECT(cintrok_advance(&work.run, UINT32_MAX, &space) == 0);
    for (int i = 0; i < 14; i++) {
        uint64_t right = work.run.wholes[i];
        work.run.wholes[i] = UINT64_MAX;
        expect_all_refused(&work, &space, CINTROK_REFUSED_RECORD);
        expect_all_refused(&work, &little, i < 4 ? CINTROK_REFUSED_RECORD : CINTROK_REFUSED_SPACE);
        work.run.wholes[i] = right;
    }
    EXPECT(cintrok_mark(&work.run, &space) == 0);
}

static void test_short_records(void)
{
    Sheet sheet = square();
    Work work, before;
    open_square(&work);
    cintrok_space s = lend(&work);
    EXPECT(cintrok_mark(&work.run, &s) == 0);
    fill(work.run.reals, sizeof work.run.reals);
    memcpy(&before, &work, sizeof before);
    for (int which = 0; which < CALLS; which++) {
        EXPECT(raw_call(which, &work, &s, 16, 8) == CINTROK_REFUSED_SPACE);
        EXPECT(raw_call(which, &work, &s, 17, 7) == CINTROK_REFUSED_SPACE);
        EXPECT(raw_call(which, &work, &s, 0, 0) == CINTROK_REFUSED_SPACE);
    }
    for (size_t bytes = sheet.count - 1; bytes <= sheet.count; bytes++) {
        uint32_t number = bytes < sheet.count ? CINTROK_REFUSED_LENGTH : CINTROK_REFUSED_SPACE;
        EXPECT(cintrok_raw_open(sheet.bytes, bytes, s.floats, s.floats_count, s.words, s.words_count, s.path, s.path_count, work.run.wholes, 16, work.run.reals, 8) == number);
        EXPECT(cintrok_raw_open(sheet.bytes, bytes, s.floats, s.floats_count, s.words, s.words_count, s.path, s.path_count, work.run.wholes, 17, work.run.reals, 7) == number);
    }
    EXPECT(cintrok_raw_length(s.floats, s.floats_count, s.words, s.words_count, s.path, s.path_count, work.run.wholes, 17, work.run.reals, 8, &work.number, 0) == CINTROK_REFUSED_SPACE);
    EXPECT(memcmp(&before, &work, sizeof before) == 0);
    EXPECT(cintrok_raw_place(work.run.wholes, 5) == 0 && cintrok_raw_passes(work.run.wholes, 16) == 0);
    EXPECT(cintrok_raw_field_end(work.run.wholes, 7) == 0 && cintrok_raw_path_end(work.run.wholes, 11) == 0);
}

static void test_short_lists(void)
{
    struct {
        uint64_t head[6], wholes[8], counts[3];
        double reals[4];
    } lists;
    Sheet sheet = square();
    fill(&lists, sizeof lists);
    EXPECT(cintrok_raw_check(sheet.bytes, sheet.count, lists.head, 5, lists.wholes, 8, lists.reals, 4) == CINTROK_REFUSED_SPACE);
    EXPECT(cintrok_raw_check(sheet.bytes, sheet.count, lists.head, 6, lists.wholes, 7, lists.reals, 4) == CINTROK_REFUSED_SPACE);
    EXPECT(cintrok_raw_check(sheet.bytes, sheet.count, lists.head, 6, lists.wholes, 8, lists.reals, 3) == CINTROK_REFUSED_SPACE);
    EXPECT(cintrok_raw_check(sheet.bytes, sheet.count - 1, lists.head, 0, lists.wholes, 0, lists.reals, 0) == CINTROK_REFUSED_LENGTH);
    EXPECT(cintrok_raw_space_needed(N, T, LIMIT, ROOM, lists.counts, 2) == CINTROK_REFUSED_SPACE);
    EXPECT(is_filled(&lists, sizeof lists));
}

static void test_short_writers(void)
{
    const uint64_t wholes[8] = {1, LIMIT, 1, 1, 1, 1, 1, ROOM};
    const double reals[4] = {1e-9, 0.25, 0.5, 0.25};
    const uint32_t bits[] = {UINT32_MAX, UINT32_MAX, 1, 0, UINT32_MAX, UINT32_MAX};
    Sheet sheet, right = square();
    uint64_t written = 7;
    memset(&sheet, 0, sizeof sheet);
    EXPECT(cintrok_raw_write_sheet(vertices, 8, triangles, 6, bits, 6, tags, 4, wholes, 7, reals, 4, sheet.bytes, SHEET_BYTES, &written, 1) == CINTROK_REFUSED_SPACE);
    EXPECT(cintrok_raw_write_sheet(vertices, 8, triangles, 6, bits, 6, tags, 4, wholes, 8, reals, 3, sheet.bytes, SHEET_BYTES, &written, 1) == CINTROK_REFUSED_SPACE);
    EXPECT(cintrok_raw_write_sheet(vertices, 8, triangles, 6, bits, 6, tags, 4, wholes, 8, reals, 4, sheet.bytes, SHEET_BYTES, &written, 0) == CINTROK_REFUSED_SPACE);
    EXPECT(written == 7 && sheet.bytes[0] == 0 && memcmp(sheet.bytes, sheet.bytes + 1, SHEET_BYTES - 1) == 0);
    EXPECT(cintrok_raw_write_sheet(vertices, 8, triangles, 6, bits, 6, tags, 4, wholes, 8, reals, 4, sheet.bytes, SHEET_BYTES, &written, 1) == 0);
    EXPECT(written == right.count && memcmp(sheet.bytes, right.bytes, SHEET_BYTES) == 0);
    EXPECT(cintrok_raw_write_sheet(vertices, 7, triangles, 6, bits, 6, tags, 4, wholes, 8, reals, 4, sheet.bytes, SHEET_BYTES, &written, 1) == CINTROK_REFUSED_UNEVEN);
}

// ---- what a run shows

typedef uint32_t Show(const cintrok_run *run, const cintrok_space *space, const double **values, size_t *count);

static bool shows(Show *show, const Work *work, const cintrok_space *space, size_t width, size_t count)
{
    const double *values = NULL, *buffer = show == cintrok_points ? space->path : space->floats;
    size_t shown = SIZE_MAX, places = show == cintrok_points ? space->path_count : space->floats_count;
    return show(&work->run, space, &values, &shown) == 0 && shown == count && values >= buffer && values + shown * width <= buffer + places;
}

static void test_showing_each_place(void)
{
    Work work;
    open_square(&work);
    cintrok_space space = lend(&work);
    for (uint64_t place = 0; cintrok_path_end(&work.run) == 0 && place < 100; place++) {
        EXPECT(cintrok_place(&work.run) == place && cintrok_passes(&work.run) == place);
        EXPECT(shows(cintrok_field, &work, &space, 1, N) && shows(cintrok_gradients, &work, &space, 2, T));
        EXPECT(cintrok_norms(&work.run, &space, &work.values, &work.count) == 0 && shows(cintrok_norms, &work, &space, 1, work.count));
        EXPECT(cintrok_points(&work.run, &space, &work.values, &work.count) == 0 && shows(cintrok_points, &work, &space, 2, work.count));
        EXPECT(cintrok_field_end(&work.run) == 0 ? work.count == 0 : work.count <= ROOM);
        EXPECT(cintrok_advance(&work.run, 1, &space) == 0 && is_untouched_around(&work));
    }
    EXPECT(cintrok_field_end(&work.run) != 0 && cintrok_path_end(&work.run) != 0);
    EXPECT(cintrok_points(&work.run, &space, &work.values, &work.count) == 0 && work.count > 1 && work.values == space.path);
    EXPECT(work.values[0] == 0.5 && work.values[1] == 0.25);
    EXPECT(cintrok_length(&work.run, &space, &work.number) == 0 && work.number > 0);
}

static void test_showing_before_the_start(void)
{
    Work work;
    open_square(&work);
    cintrok_space space = lend(&work);
    EXPECT(shows(cintrok_points, &work, &space, 2, 0) && shows(cintrok_norms, &work, &space, 1, 1));
    EXPECT(cintrok_points(&work.run, &space, &work.values, &work.count) == 0 && work.values == space.path && work.count == 0);
    EXPECT(cintrok_length(&work.run, &space, &work.number) == 0 && work.number == 0);
    EXPECT(cintrok_field_end(&work.run) == CINTROK_FIELD_UNFINISHED && cintrok_path_end(&work.run) == CINTROK_PATH_UNFINISHED);
}

// An altered record, or no space, shows nothing.
static void test_showing_nothing(void)
{
    static Show *const parts[] = {cintrok_field, cintrok_norms, cintrok_gradients, cintrok_points};
    cintrok_space none = {NULL, 0, NULL, 0, NULL, 0};
    Work work;
    open_square(&work);
    cintrok_space space = lend(&work);
    EXPECT(cintrok_advance(&work.run, UINT32_MAX, &space) == 0);
    for (int i = 0; i < 4; i++) {
        EXPECT(parts[i](&work.run, &none, &work.values, &work.count) == 0 && work.values == NULL && work.count == 0);
    }
    for (int i = 0; i < 2; i++) {
        uint64_t right = work.run.wholes[i];
        work.run.wholes[i] = UINT64_MAX;
        EXPECT(shows(cintrok_field, &work, &space, 1, 0) && shows(cintrok_norms, &work, &space, 1, 0) && shows(cintrok_gradients, &work, &space, 2, 0));
        work.run.wholes[i] = right;
    }
    work.run.wholes[10] = UINT64_MAX;
    EXPECT(shows(cintrok_points, &work, &space, 2, 0));
}

static void test_showing_short_lists(void)
{
    typedef uint32_t Raw(const double *, size_t, const uint64_t *, size_t, const double *, size_t, uint64_t *, size_t);
    static Raw *const parts[] = {cintrok_raw_field, cintrok_raw_norms, cintrok_raw_gradients, cintrok_raw_points};
    uint64_t out[2] = {7, 8};
    Work work;
    open_square(&work);
    cintrok_space s = lend(&work);
    for (int i = 0; i < 4; i++) {
        const double *buffer = i == 3 ? s.path : s.floats;
        size_t count = i == 3 ? s.path_count : s.floats_count;
        EXPECT(parts[i](buffer, count, work.run.wholes, 16, work.run.reals, 8, out, 2) == CINTROK_REFUSED_SPACE);
        EXPECT(parts[i](buffer, count, work.run.wholes, 17, work.run.reals, 7, out, 2) == CINTROK_REFUSED_SPACE);
        EXPECT(parts[i](buffer, count, work.run.wholes, 17, work.run.reals, 8, out, 1) == CINTROK_REFUSED_SPACE);
    }
    EXPECT(out[0] == 7 && out[1] == 8);
}

// ---- calls

static void test_calls(void)
{
    Work work, before;
    open_square(&work);
    cintrok_space space = lend(&work);
    expect_refused(RETURN, &work, &space, CINTROK_REFUSED_NO_MARK);
    EXPECT(cintrok_advance(&work.run, UINT32_MAX, &space) == 0);
    uint64_t last = cintrok_place(&work.run);
    memcpy(&before, &work, sizeof before);
    EXPECT(cintrok_back(&work.run, 1, &space) == 0 && cintrok_mark(&work.run, &space) == 0 && cintrok_place(&work.run) == last - 1);
    EXPECT(cintrok_back(&work.run, UINT32_MAX, &space) == 0 && cintrok_place(&work.run) == 0 && cintrok_passes(&work.run) == last);
    EXPECT(cintrok_return(&work.run, &space) == 0 && cintrok_place(&work.run) == last - 1);
    EXPECT(cintrok_advance(&work.run, 1, &space) == 0 && cintrok_passes(&work.run) == last + 1 && cintrok_path_end(&work.run) != 0);
    EXPECT(memcmp(before.path, work.path, sizeof work.path) == 0);
    EXPECT(is_untouched_around(&work));
}

static void test_most_passes(void)
{
    Work work;
    open_square(&work);
    cintrok_space space = lend(&work);
    work.run.wholes[16] = UINT64_MAX;
    expect_refused(ADVANCE, &work, &space, CINTROK_REFUSED_RECORD);
    EXPECT(cintrok_advance(&work.run, 0, &space) == 0 && cintrok_passes(&work.run) == UINT64_MAX);
    work.run.wholes[16] = UINT64_MAX - 1;
    EXPECT(cintrok_advance(&work.run, 1, &space) == 0 && cintrok_passes(&work.run) == UINT64_MAX && cintrok_place(&work.run) == 1);
    expect_refused(ADVANCE, &work, &space, CINTROK_REFUSED_RECORD);
}

// No vertices and no triangles: the lists may be NULL.
static void test_empty_mesh(void)
{
    cintrok_settings settings = all_settings();
    Sheet sheet = square();
    cintrok_sheet checked;
    Work work;
    EXPECT(cintrok_write_sheet(NULL, 0, NULL, 0, NULL, NULL, &settings, sheet.bytes, sizeof sheet.bytes, &sheet.count) == 0);
    checked = check(&sheet);
    EXPECT(checked.n == 0 && checked.t == 0);
    fill(&work, sizeof work);
    cintrok_space space = lend(&work);
    EXPECT(cintrok_open(sheet.bytes, sheet.count, &space, &work.run) == 0 && cintrok_advance(&work.run, 100, &space) == 0);
    EXPECT(shows(cintrok_field, &work, &space, 1, 0) && shows(cintrok_gradients, &work, &space, 2, 0) && shows(cintrok_points, &work, &space, 2, 0));
    EXPECT(cintrok_path_end(&work.run) == CINTROK_PATH_START_OUTSIDE);
}

// ---- what the names mean

// The refusals of README.md.
static void test_texts(void)
{
    static const char *const texts[] = {
        "no refusal",
        "the sheet is too short, or bytes are left over",
        "a count over its limit",
        "the neighbours are not 3T, or the tags not n",
        "a vertex number, neighbour or tag outside its set",
        "a setting unknown or not rising; step, room or half a start missing",
        "a NaN",
        "infinite, or outside its range",
        "lent space short",
        "a return with no mark",
        "an index or count in the work or the record outside its range, or passes beyond 2^64 - 1",
        "unknown refusal"};
    for (uint32_t i = 0; i < 12; i++) {
        EXPECT(strcmp(cintrok_refusal_text(i), texts[i]) == 0);
    }
    EXPECT(strcmp(cintrok_refusal_text(UINT32_MAX), "unknown refusal") == 0);
}

// One triangle, sample S1 of README.md, and its settings.
static const double corners_at[] = {0, 0, 2, 0, 0, 2};
static const uint32_t one_triangle[] = {0, 1, 2};
static const int32_t alone[] = {CINTROK_NO_NEIGHBOUR, CINTROK_NO_NEIGHBOUR, CINTROK_NO_NEIGHBOUR};
static const uint8_t corner_tags[] = {CINTROK_TAG_INNER, CINTROK_TAG_OUTER, CINTROK_TAG_NONE};

static cintrok_settings few_settings(void)
{
    cintrok_settings settings = {false, false, true, true, true, true, 0, 0, 0x1p-1000, 0.5, 0.5, 100};
    return settings;
}

static Sheet triangle(const cintrok_settings *settings)
{
    Sheet sheet;
    memset(&sheet, 0, sizeof sheet);
    EXPECT(cintrok_write_sheet(corners_at, 3, one_triangle, 1, alone, corner_tags, settings, sheet.bytes, sizeof sheet.bytes, &sheet.count) == 0);
    return sheet;
}

// A run at its end. The buffers hold a little more than the default limit needs, whatever the header says it is.
enum { PLENTY = 1200, WORDS_PLENTY = 300 };

typedef struct {
    double floats[PLENTY];
    double path[PLENTY];
    uint32_t words[WORDS_PLENTY];
    cintrok_run run;
} Ended;

static cintrok_space plenty(Ended *ended)
{
    cintrok_space space = {ended->floats, PLENTY, ended->words, WORDS_PLENTY, ended->path, PLENTY};
    return space;
}

static bool run_to_end(const Sheet *sheet, Ended *ended)
{
    cintrok_space space = plenty(ended);
    fill(ended, sizeof *ended);
    return cintrok_open(sheet->bytes, sheet->count, &space, &ended->run) == 0 && cintrok_advance(&ended->run, UINT32_MAX, &space) == 0;
}

static bool ends(const Sheet *sheet, uint64_t field_end, uint64_t path_end)
{
    Ended ended;
    return run_to_end(sheet, &ended) && cintrok_field_end(&ended.run) == field_end && cintrok_path_end(&ended.run) == path_end;
}

static void test_ends(void)
{
    cintrok_settings settings = few_settings();
    Sheet sheet = triangle(&settings);
    EXPECT(ends(&sheet, CINTROK_FIELD_SOLVED, CINTROK_PATH_BORDER));
    settings.room = 4;
    sheet = triangle(&settings);
    EXPECT(ends(&sheet, CINTROK_FIELD_SOLVED, CINTROK_PATH_ROOM));
    settings = few_settings();
    settings.has_limit = true;
    sheet = triangle(&settings);
    EXPECT(ends(&sheet, CINTROK_FIELD_LIMIT, CINTROK_PATH_FLAT));
    settings = few_settings();
    settings.has_tolerance = true;
    sheet = triangle(&settings);
    EXPECT(ends(&sheet, CINTROK_FIELD_STALLED, CINTROK_PATH_BORDER));
    settings = few_settings();
    settings.start_x = settings.start_y = 3;
    sheet = triangle(&settings);
    EXPECT(ends(&sheet, CINTROK_FIELD_SOLVED, CINTROK_PATH_START_OUTSIDE));
}

// A neighbour that does not name the triangle back; a triangle that is its own neighbour, from which the path comes near the outer corner or finds no way out.
static void test_wrong_neighbours(void)
{
    static const int32_t one_sided[] = {-1, -1, 1, -1, -1, -1}, itself[] = {0, 0, 0};
    cintrok_settings settings = all_settings();
    Sheet sheet;
    memset(&sheet, 0, sizeof sheet);
    EXPECT(cintrok_write_sheet(vertices, N, triangles, T, one_sided, tags, &settings, sheet.bytes, sizeof sheet.bytes, &sheet.count) == 0);
    EXPECT(ends(&sheet, CINTROK_FIELD_SOLVED, CINTROK_PATH_ONE_SIDED));
    settings = few_settings();
    EXPECT(cintrok_write_sheet(corners_at, 3, one_triangle, 1, itself, corner_tags, &settings, sheet.bytes, sizeof sheet.bytes, &sheet.count) == 0);
    EXPECT(ends(&sheet, CINTROK_FIELD_SOLVED, CINTROK_PATH_NO_EXIT));
    settings.start_x = 1.99;
    settings.start_y = 0x1p-10;
    EXPECT(cintrok_write_sheet(corners_at, 3, one_triangle, 1, itself, corner_tags, &settings, sheet.bytes, sizeof sheet.bytes, &sheet.count) == 0);
    EXPECT(ends(&sheet, CINTROK_FIELD_SOLVED, CINTROK_PATH_OUTER));
}

// A ring of six triangles around a small one; with so short a step the path goes round until its passes are used up.
static void test_crossings(void)
{
    static const double ring[] = {0.0625, 0, -0.03125, 0.0625, -0.03125, -0.0625, 0.25, 0, -0.125, 0.25, -0.125, -0.25};
    static const uint32_t around[] = {0, 3, 4, 0, 4, 1, 1, 4, 5, 1, 5, 2, 2, 5, 3, 2, 3, 0};
    static const int32_t beside[] = {5, -1, 1, 0, 2, -1, 1, -1, 3, 2, 4, -1, 3, -1, 5, 4, 0, -1};
    static const uint8_t ring_tags[] = {CINTROK_TAG_INNER, CINTROK_TAG_INNER, CINTROK_TAG_INNER, CINTROK_TAG_OUTER, CINTROK_TAG_OUTER, CINTROK_TAG_OUTER};
    cintrok_settings settings = few_settings();
    uint8_t bytes[2 * SHEET_BYTES];
    Ended ended;
    cintrok_space space = plenty(&ended);
    size_t count = 0;
    settings.start_x = 0.125;
    settings.start_y = 0;
    settings.room = PLENTY / 2;
    fill(&ended, sizeof ended);
    EXPECT(cintrok_write_sheet(ring, 6, around, 6, beside, ring_tags, &settings, bytes, sizeof bytes, &count) == 0);
    EXPECT(cintrok_open(bytes, count, &space, &ended.run) == 0 && cintrok_advance(&ended.run, UINT32_MAX, &space) == 0);
    EXPECT(cintrok_field_end(&ended.run) == CINTROK_FIELD_SOLVED && cintrok_path_end(&ended.run) == CINTROK_PATH_CROSSINGS);
}

// Without a start: no triangles, and sample S10 of the specification, a free vertex of no triangle in front of the triangle's.
static void test_no_start(void)
{
    static const double four[] = {5, 5, 0, 0, 2, 0, 0, 2};
    static const uint32_t behind[] = {1, 2, 3};
    static const uint8_t four_tags[] = {CINTROK_TAG_NONE, CINTROK_TAG_INNER, CINTROK_TAG_OUTER, CINTROK_TAG_NONE};
    cintrok_settings settings = few_settings();
    Sheet sheet;
    Ended ended;
    settings.has_start_x = settings.has_start_y = false;
    memset(&sheet, 0, sizeof sheet);
    EXPECT(cintrok_write_sheet(four, 4, behind, 1, alone, four_tags, &settings, sheet.bytes, sizeof sheet.bytes, &sheet.count) == 0);
    EXPECT(ends(&sheet, CINTROK_FIELD_SOLVED, CINTROK_PATH_NO_START));
    EXPECT(cintrok_write_sheet(NULL, 0, NULL, 0, NULL, NULL, &settings, sheet.bytes, sizeof sheet.bytes, &sheet.count) == 0);
    EXPECT(run_to_end(&sheet, &ended) && cintrok_path_end(&ended.run) == CINTROK_PATH_NO_START);
}

// Held at 1, held at 0, and between them where it is free.
static void test_tags(void)
{
    cintrok_settings settings = few_settings();
    Sheet sheets[] = {square(), triangle(&settings)};
    for (int which = 0; which < 2; which++) {
        cintrok_sheet checked = check(&sheets[which]);
        Ended ended;
        cintrok_space space = plenty(&ended);
        const double *field = NULL;
        size_t count = 0;
        EXPECT(run_to_end(&sheets[which], &ended) && cintrok_field_end(&ended.run) != CINTROK_FIELD_UNFINISHED);
        EXPECT(cintrok_field(&ended.run, &space, &field, &count) == 0 && count == checked.n);
        for (size_t i = 0; i < count; i++) {
            uint8_t tag = 7;
            EXPECT(cintrok_tag(sheets[which].bytes, sheets[which].count, &checked, i, &tag) == 0);
            EXPECT(tag != CINTROK_TAG_OUTER || field[i] == 1);
            EXPECT(tag != CINTROK_TAG_INNER || field[i] == 0);
            EXPECT(tag != CINTROK_TAG_NONE || which == 1 || (field[i] > 0.25 && field[i] < 0.75));
        }
    }
}

// What is absent is as if the header's number had been given, to the last bit of the record and the space.
static void test_defaults(void)
{
    cintrok_settings settings = few_settings();
    Sheet absent = triangle(&settings), given;
    Ended without, with;
    cintrok_space space = plenty(&without), needs = space;
    settings.has_limit = true;
    settings.limit = CINTROK_DEFAULT_LIMIT;
    given = triangle(&settings);
    EXPECT(run_to_end(&absent, &without) && run_to_end(&given, &with) && memcmp(&without, &with, sizeof with) == 0);
    settings = few_settings();
    settings.has_tolerance = true;
    settings.tolerance = CINTROK_DEFAULT_TOLERANCE;
    given = triangle(&settings);
    EXPECT(run_to_end(&absent, &without) && run_to_end(&given, &with) && memcmp(&without, &with, sizeof with) == 0);
    EXPECT(cintrok_space_needed(3, 1, CINTROK_DEFAULT_LIMIT, settings.room, &needs) == 0 && needs.floats_count <= PLENTY);
    space.floats_count = needs.floats_count <= PLENTY ? needs.floats_count - 1 : 0;
    fill(&without, sizeof without);
    EXPECT(cintrok_open(absent.bytes, absent.count, &space, &without.run) == CINTROK_REFUSED_SPACE && is_filled(&without, sizeof without));
    space.floats_count++;
    EXPECT(cintrok_open(absent.bytes, absent.count, &space, &without.run) == 0);
}

static double beyond(double number)
{
    uint64_t bits;
    memcpy(&bits, &number, sizeof bits);
    bits++;
    memcpy(&number, &bits, sizeof bits);
    return number;
}

static void test_coordinates(void)
{
    static const double most[] = {CINTROK_MAX_COORDINATE, -CINTROK_MAX_COORDINATE};
    cintrok_settings settings = few_settings();
    Sheet sheet;
    for (size_t i = 0; i < 12; i++) {
        double points[6] = {0, 0, 2, 0, 0, 2};
        points[i % 6] = most[i / 6];
        EXPECT(cintrok_write_sheet(points, 3, one_triangle, 1, alone, corner_tags, &settings, sheet.bytes, sizeof sheet.bytes, &sheet.count) == 0);
        points[i % 6] = beyond(most[i / 6]);
        fill(&sheet, sizeof sheet);
        EXPECT(cintrok_write_sheet(points, 3, one_triangle, 1, alone, corner_tags, &settings, sheet.bytes, sizeof sheet.bytes, &sheet.count) == CINTROK_REFUSED_RANGE);
        EXPECT(is_filled(&sheet, sizeof sheet));
    }
}

int main(void)
{
    static void (*const all[])(void) = {
        test_round_trip, test_missing_items, test_check_refusals, test_short_write, test_wrong_settings, test_wrong_lists, test_space_needed, test_short_space,
        test_flags, test_altered_records, test_short_records, test_short_lists, test_short_writers, test_showing_each_place, test_showing_before_the_start,
        test_showing_nothing, test_showing_short_lists, test_calls, test_most_passes, test_empty_mesh, test_texts,
        test_ends, test_wrong_neighbours, test_crossings, test_no_start, test_tags, test_defaults, test_coordinates};
    for (size_t i = 0; i < sizeof all / sizeof all[0]; i++) {
        all[i]();
    }
    if (failures != 0) {
        printf("border: %u of %u tests failed\n", failures, tests);
        return 1;
    }
    printf("border: %u tests\n", tests);
    return 0;
}
