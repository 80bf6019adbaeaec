// Cintrok: solves a harmonic field on a triangle mesh and traces a spiral path along its level lines, pass by pass, with the same bits on every run.
// A sheet (mesh and settings, as bytes) is opened to a run. A run goes on and back by passes, and shows its field, its gradients and the points of its path.
//
//     cintrok_check          what stands in a sheet
//     cintrok_space_needed   how many places a run of it needs
//     cintrok_open           a run at place 0, in space that the caller lends
//     cintrok_advance        some passes on, until cintrok_path_end is no longer 0
//     cintrok_points         the path: x, y of each point, inside the lent space
//
// This header and libcintrok.a, which is for x86-64 Linux, are all that is needed. The archive keeps nothing between calls, allocates nothing and calls nothing outside itself but memset,
// memcpy and the like, which a compiler puts in.
//
// What the caller keeps to:
// - Every count is the true number of places behind its pointer, and a buffer is aligned for its type. Only lists and buffers may be NULL, which counts as no
//   places; a pointer to a space, a run, settings, a checked sheet or a result may not.
// - No two of the buffers, records and results that are handed to one call overlap.
// - A run and its space are in one call at a time. Different runs in different spaces may be called side by side.
// - A run goes with the space in which it was opened, unchanged but by these calls: lend what the run was opened with, or at least the space rule's part of it.
//   What is lent behind that is not the run's. It may be moved: the same contents elsewhere serve as well.
// - Doubles are rounded to nearest and subnormals are kept, as a program starts out.
//
// Stack: no call takes more than 16 KB, but for an advance of a run whose passes are near 2^64 - 1, which takes 98,304 bytes and a little more.
//
// A function that returns uint32_t returns 0, or the number of what refused it (CINTROK_REFUSED_...). What is refused leaves the space, the record and
// whatever the other pointers point at as they were.

#ifndef CINTROK_H
#define CINTROK_H

#include <stdbool.h>
#include <stddef.h>
#include <stdint.h>

#ifdef __cplusplus
extern "C" {
#endif

// ---- numbers

// The most that a sheet may have, and the coordinates' range: from -CINTROK_MAX_COORDINATE to CINTROK_MAX_COORDINATE.
#define CINTROK_MAX_VERTICES 4096
#define CINTROK_MAX_TRIANGLES 8192
#define CINTROK_MAX_LIMIT 100000
#define CINTROK_MAX_ROOM 1000000
#define CINTROK_MAX_COORDINATE 1048576.0
// No accepted sheet has more bytes.
#define CINTROK_MAX_SHEET_BYTES 266314

// What an absent setting means.
#define CINTROK_DEFAULT_LIMIT 1000
#define CINTROK_DEFAULT_TOLERANCE 1e-8

// Tags of vertices: free, held at 1, held at 0.
#define CINTROK_TAG_NONE 0
#define CINTROK_TAG_OUTER 1
#define CINTROK_TAG_INNER 2

// The neighbour of an edge with no triangle behind it.
#define CINTROK_NO_NEIGHBOUR (-1)

// Doubles of a point or gradient: x, y.
#define CINTROK_POINT_FLOATS 2

// Numbers in a run's record.
#define CINTROK_RECORD_WHOLES 17
#define CINTROK_RECORD_REALS 8

// Refusals.
#define CINTROK_REFUSED_LENGTH UINT32_C(1)    // the sheet is too short, or bytes are left over
#define CINTROK_REFUSED_COUNT UINT32_C(2)     // a count over its limit
#define CINTROK_REFUSED_UNEVEN UINT32_C(3)    // the neighbours are not 3T, or the tags not n
#define CINTROK_REFUSED_OUTSIDE UINT32_C(4)   // a vertex number, neighbour or tag outside its set
#define CINTROK_REFUSED_SETTING UINT32_C(5)   // a setting unknown or not rising; step, room or half a start missing
#define CINTROK_REFUSED_NAN UINT32_C(6)       // a NaN
#define CINTROK_REFUSED_RANGE UINT32_C(7)     // infinite, or outside its range
#define CINTROK_REFUSED_SPACE UINT32_C(8)     // lent space short
#define CINTROK_REFUSED_NO_MARK UINT32_C(9)   // a return with no mark
#define CINTROK_REFUSED_RECORD UINT32_C(10)   // an index or count in the work or the record outside its range, or passes beyond 2^64 - 1

// How the field ended.
#define CINTROK_FIELD_UNFINISHED 0   // not yet
#define CINTROK_FIELD_SOLVED 1       // the residual's norm fell below the tolerance
#define CINTROK_FIELD_STALLED 2      // the direction has no slope left to step by (|p.Ap| below 1e-30)
#define CINTROK_FIELD_LIMIT 3        // the limit of passes is used up

// How the path ended. A run is at its last place when this is not 0.
#define CINTROK_PATH_UNFINISHED 0      // not yet
#define CINTROK_PATH_FLAT 1            // the gradient's magnitude is below 1e-12
#define CINTROK_PATH_NO_EXIT 2         // no way out of the triangle
#define CINTROK_PATH_BORDER 3          // it came to the border
#define CINTROK_PATH_ONE_SIDED 4       // the neighbour does not name the triangle back
#define CINTROK_PATH_OUTER 5           // the field rose above 0.99
#define CINTROK_PATH_CROSSINGS 6       // its passes are used up: 20 for each triangle
#define CINTROK_PATH_ROOM 7            // the next points would be more than the room
#define CINTROK_PATH_START_OUTSIDE 8   // the given start lies in no triangle
#define CINTROK_PATH_NO_START 9        // no start was given, and none was found

// ---- what is handed over

// A run's record. The caller keeps it and hands it back; only the functions below read or write its numbers.
typedef struct cintrok_run {
    uint64_t wholes[CINTROK_RECORD_WHOLES];
    double reals[CINTROK_RECORD_REALS];
} cintrok_run;

// The space that the caller lends. A run of n vertices and t triangles needs 12n + 12t + limit + 32 floats, 8n + 32t + 32 words and 2 path places for each
// point of its room (cintrok_space_needed). What is lent beyond that stays as it was.
typedef struct cintrok_space {
    double *floats;
    size_t floats_count;
    uint32_t *words;
    size_t words_count;
    double *path;
    size_t path_count;
} cintrok_space;

// The settings of a sheet, each with whether it is there. Step and room must be; start_x and start_y come together.
typedef struct cintrok_settings {
    bool has_limit;
    bool has_tolerance;
    bool has_step;
    bool has_start_x;
    bool has_start_y;
    bool has_room;
    uint64_t limit;     // the most passes that solve the field, to CINTROK_MAX_LIMIT
    double tolerance;   // the norm of the residual below which the field is solved; finite
    double step;        // above 0, finite
    double start_x;     // where the path starts, in the coordinates' range
    double start_y;
    uint64_t room;      // the most points of the path, 1 to CINTROK_MAX_ROOM
} cintrok_settings;

// What stands in an accepted sheet: n vertices, t triangles, the settings (an absent one has the number 0), and the byte at which the items of each section start.
typedef struct cintrok_sheet {
    size_t n;
    size_t t;
    cintrok_settings settings;
    size_t vertices_at;
    size_t triangles_at;
    size_t neighbours_at;
    size_t tags_at;
} cintrok_sheet;

// ---- the archive's functions. The functions for people, further down, call them with the right lengths; a list is a pointer, never NULL, and its length.

uint32_t cintrok_raw_check(const uint8_t *sheet, size_t sheet_len, uint64_t *head, size_t head_len, uint64_t *wholes, size_t wholes_len, double *reals, size_t reals_len);
void cintrok_raw_vertex(const uint8_t *items, size_t items_len, size_t i, double *out, size_t out_len);
void cintrok_raw_corners(const uint8_t *items, size_t items_len, size_t i, uint32_t *out, size_t out_len);
uint32_t cintrok_raw_neighbour(const uint8_t *items, size_t items_len, size_t i);
uint32_t cintrok_raw_tag(const uint8_t *items, size_t items_len, size_t i);
uint32_t cintrok_raw_write_sheet(const double *vertices, size_t vertices_len, const uint32_t *triangles, size_t triangles_len, const uint32_t *neighbours, size_t neighbours_len,
                                 const uint8_t *tags, size_t tags_len, const uint64_t *wholes, size_t wholes_len, const double *reals, size_t reals_len,
                                 uint8_t *out, size_t out_len, uint64_t *written, size_t written_len);
uint32_t cintrok_raw_open(const uint8_t *sheet, size_t sheet_len, double *floats, size_t floats_len, uint32_t *words, size_t words_len, double *path, size_t path_len,
                          uint64_t *wholes, size_t wholes_len, double *reals, size_t reals_len);
uint32_t cintrok_raw_advance(uint32_t k, double *floats, size_t floats_len, const uint32_t *words, size_t words_len, double *path, size_t path_len,
                             uint64_t *wholes, size_t wholes_len, double *reals, size_t reals_len);
uint32_t cintrok_raw_back(uint32_t k, double *floats, size_t floats_len, const uint32_t *words, size_t words_len, double *path, size_t path_len,
                          uint64_t *wholes, size_t wholes_len, double *reals, size_t reals_len);
uint32_t cintrok_raw_mark(double *floats, size_t floats_len, const uint32_t *words, size_t words_len, double *path, size_t path_len,
                          uint64_t *wholes, size_t wholes_len, double *reals, size_t reals_len);
uint32_t cintrok_raw_return(double *floats, size_t floats_len, const uint32_t *words, size_t words_len, double *path, size_t path_len,
                            uint64_t *wholes, size_t wholes_len, double *reals, size_t reals_len);
uint32_t cintrok_raw_length(const double *floats, size_t floats_len, const uint32_t *words, size_t words_len, const double *path, size_t path_len,
                            const uint64_t *wholes, size_t wholes_len, const double *reals, size_t reals_len, double *out, size_t out_len);
uint64_t cintrok_raw_place(const uint64_t *wholes, size_t wholes_len);
uint64_t cintrok_raw_passes(const uint64_t *wholes, size_t wholes_len);
uint64_t cintrok_raw_field_end(const uint64_t *wholes, size_t wholes_len);
uint64_t cintrok_raw_path_end(const uint64_t *wholes, size_t wholes_len);
uint32_t cintrok_raw_field(const double *floats, size_t floats_len, const uint64_t *wholes, size_t wholes_len, const double *reals, size_t reals_len, uint64_t *out, size_t out_len);
uint32_t cintrok_raw_norms(const double *floats, size_t floats_len, const uint64_t *wholes, size_t wholes_len, const double *reals, size_t reals_len, uint64_t *out, size_t out_len);
uint32_t cintrok_raw_gradients(const double *floats, size_t floats_len, const uint64_t *wholes, size_t wholes_len, const double *reals, size_t reals_len, uint64_t *out, size_t out_len);
uint32_t cintrok_raw_points(const double *path, size_t path_len, const uint64_t *wholes, size_t wholes_len, const double *reals, size_t reals_len, uint64_t *out, size_t out_len);
uint32_t cintrok_raw_space_needed(uint64_t n, uint64_t t, uint64_t limit, uint64_t room, uint64_t *out, size_t out_len);

// ---- NULLs: the archive takes none, so a place that nobody reads or writes stands in, with the count 0

static inline size_t cintrok_inner_count(const void *places, size_t count)
{
    return places == NULL ? 0 : count;
}

static inline const uint8_t *cintrok_inner_bytes(const uint8_t *bytes)
{
    static const uint8_t none = 0;
    return bytes == NULL ? &none : bytes;
}

static inline cintrok_space cintrok_inner_space(const cintrok_space *space)
{
    static double no_floats, no_path;
    static uint32_t no_words;
    cintrok_space lent;
    lent.floats = space->floats == NULL ? &no_floats : space->floats;
    lent.floats_count = cintrok_inner_count(space->floats, space->floats_count);
    lent.words = space->words == NULL ? &no_words : space->words;
    lent.words_count = cintrok_inner_count(space->words, space->words_count);
    lent.path = space->path == NULL ? &no_path : space->path;
    lent.path_count = cintrok_inner_count(space->path, space->path_count);
    return lent;
}

// ---- refusals in words

static inline const char *cintrok_refusal_text(uint32_t refused)
{
    switch (refused) {
    case 0: return "no refusal";
    case CINTROK_REFUSED_LENGTH: return "the sheet is too short, or bytes are left over";
    case CINTROK_REFUSED_COUNT: return "a count over its limit";
    case CINTROK_REFUSED_UNEVEN: return "the neighbours are not 3T, or the tags not n";
    case CINTROK_REFUSED_OUTSIDE: return "a vertex number, neighbour or tag outside its set";
    case CINTROK_REFUSED_SETTING: return "a setting unknown or not rising; step, room or half a start missing";
    case CINTROK_REFUSED_NAN: return "a NaN";
    case CINTROK_REFUSED_RANGE: return "infinite, or outside its range";
    case CINTROK_REFUSED_SPACE: return "lent space short";
    case CINTROK_REFUSED_NO_MARK: return "a return with no mark";
    case CINTROK_REFUSED_RECORD: return "an index or count in the work or the record outside its range, or passes beyond 2^64 - 1";
    default: return "unknown refusal";
    }
}

// ---- sheets

static inline cintrok_settings cintrok_inner_settings(const uint64_t wholes[8], const double reals[4])
{
    cintrok_settings settings;
    settings.has_limit = wholes[0] != 0;
    settings.has_tolerance = wholes[2] != 0;
    settings.has_step = wholes[3] != 0;
    settings.has_start_x = wholes[4] != 0;
    settings.has_start_y = wholes[5] != 0;
    settings.has_room = wholes[6] != 0;
    settings.limit = wholes[1];
    settings.tolerance = reals[0];
    settings.step = reals[1];
    settings.start_x = reals[2];
    settings.start_y = reals[3];
    settings.room = wholes[7];
    return settings;
}

// Reads a sheet from its bytes. Refused by 1 to 7.
static inline uint32_t cintrok_check(const uint8_t *sheet, size_t sheet_count, cintrok_sheet *out)
{
    uint64_t head[6] = {0, 0, 0, 0, 0, 0};
    uint64_t wholes[8] = {0, 0, 0, 0, 0, 0, 0, 0};
    double reals[4] = {0, 0, 0, 0};
    uint32_t refused = cintrok_raw_check(cintrok_inner_bytes(sheet), cintrok_inner_count(sheet, sheet_count), head, 6, wholes, 8, reals, 4);
    if (refused != 0) {
        return refused;
    }
    out->n = (size_t)head[0];
    out->t = (size_t)head[1];
    out->settings = cintrok_inner_settings(wholes, reals);
    out->vertices_at = (size_t)head[2];
    out->triangles_at = (size_t)head[3];
    out->neighbours_at = (size_t)head[4];
    out->tags_at = (size_t)head[5];
    return 0;
}

// What refuses item i of a section of `count` items of `size` bytes each that start at byte `at` of a sheet.
static inline uint32_t cintrok_inner_item(const uint8_t *sheet, size_t sheet_count, size_t at, size_t size, size_t count, size_t i)
{
    if (i >= count) {
        return CINTROK_REFUSED_RECORD;
    }
    sheet_count = cintrok_inner_count(sheet, sheet_count);
    return at > sheet_count || (sheet_count - at) / size <= i ? CINTROK_REFUSED_LENGTH : 0;
}

// The items of a sheet that cintrok_check accepted; `checked` is what it filled. An index that the sheet does not have is refused with 10, bytes that end before the item with 1.

// x, y of vertex i.
static inline uint32_t cintrok_vertex(const uint8_t *sheet, size_t sheet_count, const cintrok_sheet *checked, size_t i, double *x, double *y)
{
    double point[2] = {0, 0};
    uint32_t refused = cintrok_inner_item(sheet, sheet_count, checked->vertices_at, 16, checked->n, i);
    if (refused != 0) {
        return refused;
    }
    cintrok_raw_vertex(sheet + checked->vertices_at, sheet_count - checked->vertices_at, i, point, 2);
    *x = point[0];
    *y = point[1];
    return 0;
}

// The vertex numbers of triangle i.
static inline uint32_t cintrok_corners(const uint8_t *sheet, size_t sheet_count, const cintrok_sheet *checked, size_t i, uint32_t corners[3])
{
    uint32_t refused = cintrok_inner_item(sheet, sheet_count, checked->triangles_at, 12, checked->t, i);
    if (refused != 0) {
        return refused;
    }
    cintrok_raw_corners(sheet + checked->triangles_at, sheet_count - checked->triangles_at, i, corners, 3);
    return 0;
}

// The triangle behind an edge of triangle i, or CINTROK_NO_NEIGHBOUR. Edge e (0 to 2) joins corner e and corner (e + 1) mod 3.
static inline uint32_t cintrok_neighbour(const uint8_t *sheet, size_t sheet_count, const cintrok_sheet *checked, size_t i, size_t edge, int32_t *neighbour)
{
    uint32_t bits;
    uint32_t refused = edge > 2 ? CINTROK_REFUSED_RECORD : cintrok_inner_item(sheet, sheet_count, checked->neighbours_at, 12, checked->t, i);
    if (refused != 0) {
        return refused;
    }
    bits = cintrok_raw_neighbour(sheet + checked->neighbours_at, sheet_count - checked->neighbours_at, 3 * i + edge);
    *neighbour = bits > INT32_MAX ? CINTROK_NO_NEIGHBOUR : (int32_t)bits;
    return 0;
}

// The tag of vertex i.
static inline uint32_t cintrok_tag(const uint8_t *sheet, size_t sheet_count, const cintrok_sheet *checked, size_t i, uint8_t *tag)
{
    uint32_t refused = cintrok_inner_item(sheet, sheet_count, checked->tags_at, 1, checked->n, i);
    if (refused != 0) {
        return refused;
    }
    *tag = (uint8_t)cintrok_raw_tag(sheet + checked->tags_at, sheet_count - checked->tags_at, i);
    return 0;
}

// A count over its limit is refused whatever stands behind it, so no more than one item too many is handed on.
static inline size_t cintrok_inner_capped(size_t count, size_t most)
{
    return count > most ? most + 1 : count;
}

// The number of an absent setting is not looked at.
static inline void cintrok_inner_numbers(const cintrok_settings *settings, uint64_t wholes[8], double reals[4])
{
    wholes[0] = settings->has_limit ? 1 : 0;
    wholes[1] = settings->has_limit ? settings->limit : 0;
    wholes[2] = settings->has_tolerance ? 1 : 0;
    wholes[3] = settings->has_step ? 1 : 0;
    wholes[4] = settings->has_start_x ? 1 : 0;
    wholes[5] = settings->has_start_y ? 1 : 0;
    wholes[6] = settings->has_room ? 1 : 0;
    wholes[7] = settings->has_room ? settings->room : 0;
    reals[0] = settings->has_tolerance ? settings->tolerance : 0;
    reals[1] = settings->has_step ? settings->step : 0;
    reals[2] = settings->has_start_x ? settings->start_x : 0;
    reals[3] = settings->has_start_y ? settings->start_y : 0;
}

// Writes a sheet to the front of `out`, and its length in bytes to `written`; CINTROK_MAX_SHEET_BYTES are always enough. `vertices` has x, y of each vertex,
// `triangles` three vertex numbers and `neighbours` three triangles (or CINTROK_NO_NEIGHBOUR) of each triangle, `tags` one of each vertex.
// A list that is NULL though it has items is refused with 3, before anything else. Then refused by 2 to 7 as a sheet with these contents is; then by 8 where `out`
// is shorter than the sheet.
static inline uint32_t cintrok_write_sheet(const double *vertices, size_t vertex_count, const uint32_t *triangles, size_t triangle_count, const int32_t *neighbours,
                                           const uint8_t *tags, const cintrok_settings *settings, uint8_t *out, size_t out_count, size_t *written)
{
    static const double no_vertices = 0;
    static const uint32_t no_triangles = 0;
    static uint8_t no_bytes;
    size_t n = cintrok_inner_capped(vertex_count, CINTROK_MAX_VERTICES);
    size_t t = cintrok_inner_capped(triangle_count, CINTROK_MAX_TRIANGLES);
    const uint32_t *neighbour_bits = neighbours == NULL ? &no_triangles : (const uint32_t *)neighbours;
    uint64_t wholes[8];
    double reals[4];
    uint64_t length = 0;
    uint32_t refused;
    if ((n != 0 && (vertices == NULL || tags == NULL)) || (t != 0 && (triangles == NULL || neighbours == NULL))) {
        return CINTROK_REFUSED_UNEVEN;
    }
    cintrok_inner_numbers(settings, wholes, reals);
    refused = cintrok_raw_write_sheet(vertices == NULL ? &no_vertices : vertices, CINTROK_POINT_FLOATS * n, triangles == NULL ? &no_triangles : triangles, 3 * t,
                                      neighbour_bits, 3 * t, cintrok_inner_bytes(tags), n, wholes, 8, reals, 4,
                                      out == NULL ? &no_bytes : out, cintrok_inner_count(out, out_count), &length, 1);
    if (refused != 0) {
        return refused;
    }
    *written = (size_t)length;
    return 0;
}

// ---- runs

// The space for a run of n vertices and t triangles with this limit (CINTROK_DEFAULT_LIMIT where the sheet has none) and room: fills the counts, and NULL for the
// pointers. Refused with 2 for n or t, with 7 for the limit or the room.
static inline uint32_t cintrok_space_needed(uint64_t n, uint64_t t, uint64_t limit, uint64_t room, cintrok_space *needed)
{
    uint64_t counts[3] = {0, 0, 0};
    uint32_t refused = cintrok_raw_space_needed(n, t, limit, room, counts, 3);
    if (refused != 0) {
        return refused;
    }
    needed->floats = NULL;
    needed->floats_count = (size_t)counts[0];
    needed->words = NULL;
    needed->words_count = (size_t)counts[1];
    needed->path = NULL;
    needed->path_count = (size_t)counts[2];
    return 0;
}

// Opens a sheet to a run at place 0. The space and the record may hold anything before. Refused by 1 to 7 for the sheet, then by 8.
// The sheet is not needed afterwards.
static inline uint32_t cintrok_open(const uint8_t *sheet, size_t sheet_count, const cintrok_space *space, cintrok_run *run)
{
    cintrok_space lent = cintrok_inner_space(space);
    cintrok_run opened = {{0}, {0}};
    uint32_t refused = cintrok_raw_open(cintrok_inner_bytes(sheet), cintrok_inner_count(sheet, sheet_count), lent.floats, lent.floats_count, lent.words, lent.words_count,
                                        lent.path, lent.path_count, opened.wholes, CINTROK_RECORD_WHOLES, opened.reals, CINTROK_RECORD_REALS);
    if (refused == 0) {
        *run = opened;
    }
    return refused;
}

// The calls on a run are refused, in this order, with 10 for the record's n, t, limit or room; with 8 where the lent space is short; with 10 for any other number of
// the record or the space that is out of its range, and for passes beyond 2^64 - 1; with 9.

// k passes on, or to the last place if that is nearer.
static inline uint32_t cintrok_advance(cintrok_run *run, uint32_t k, const cintrok_space *space)
{
    cintrok_space lent = cintrok_inner_space(space);
    return cintrok_raw_advance(k, lent.floats, lent.floats_count, lent.words, lent.words_count, lent.path, lent.path_count,
                               run->wholes, CINTROK_RECORD_WHOLES, run->reals, CINTROK_RECORD_REALS);
}

// k passes back, or to place 0 if that is nearer.
static inline uint32_t cintrok_back(cintrok_run *run, uint32_t k, const cintrok_space *space)
{
    cintrok_space lent = cintrok_inner_space(space);
    return cintrok_raw_back(k, lent.floats, lent.floats_count, lent.words, lent.words_count, lent.path, lent.path_count,
                            run->wholes, CINTROK_RECORD_WHOLES, run->reals, CINTROK_RECORD_REALS);
}

// Marks this place, instead of any marked before.
static inline uint32_t cintrok_mark(cintrok_run *run, const cintrok_space *space)
{
    cintrok_space lent = cintrok_inner_space(space);
    return cintrok_raw_mark(lent.floats, lent.floats_count, lent.words, lent.words_count, lent.path, lent.path_count,
                            run->wholes, CINTROK_RECORD_WHOLES, run->reals, CINTROK_RECORD_REALS);
}

// To the marked place, before or behind this one. Refused with 9 where there is no mark.
static inline uint32_t cintrok_return(cintrok_run *run, const cintrok_space *space)
{
    cintrok_space lent = cintrok_inner_space(space);
    return cintrok_raw_return(lent.floats, lent.floats_count, lent.words, lent.words_count, lent.path, lent.path_count,
                              run->wholes, CINTROK_RECORD_WHOLES, run->reals, CINTROK_RECORD_REALS);
}

// The length of the path as far as it goes at this place. Refused as the calls are.
static inline uint32_t cintrok_length(const cintrok_run *run, const cintrok_space *space, double *length)
{
    cintrok_space lent = cintrok_inner_space(space);
    double sum = 0;
    uint32_t refused = cintrok_raw_length(lent.floats, lent.floats_count, lent.words, lent.words_count, lent.path, lent.path_count,
                                          run->wholes, CINTROK_RECORD_WHOLES, run->reals, CINTROK_RECORD_REALS, &sum, 1);
    if (refused == 0) {
        *length = sum;
    }
    return refused;
}

// ---- what a run shows

// The passes that lead to where the run stands.
static inline uint64_t cintrok_place(const cintrok_run *run)
{
    return cintrok_raw_place(run->wholes, CINTROK_RECORD_WHOLES);
}

// All passes that advances have made since the opening.
static inline uint64_t cintrok_passes(const cintrok_run *run)
{
    return cintrok_raw_passes(run->wholes, CINTROK_RECORD_WHOLES);
}

// CINTROK_FIELD_...
static inline uint64_t cintrok_field_end(const cintrok_run *run)
{
    return cintrok_raw_field_end(run->wholes, CINTROK_RECORD_WHOLES);
}

// CINTROK_PATH_...
static inline uint64_t cintrok_path_end(const cintrok_run *run)
{
    return cintrok_raw_path_end(run->wholes, CINTROK_RECORD_WHOLES);
}

// Each of these points `values` into the lent space and fills how many there are. They stand there until the next call on the run. The record of a run that
// was altered, or a space that was not that run's, shows at the most numbers of the lent space, or none. They are never refused for a cintrok_run.

static inline uint32_t cintrok_inner_part(uint32_t refused, const double *buffer, const uint64_t part[2], size_t each, const double **values, size_t *count)
{
    if (refused != 0) {
        return refused;
    }
    *values = part[0] == 0 ? buffer : buffer + part[0];
    *count = (size_t)part[1] / each;
    return 0;
}

// The field: one number for each vertex.
static inline uint32_t cintrok_field(const cintrok_run *run, const cintrok_space *space, const double **values, size_t *count)
{
    cintrok_space lent = cintrok_inner_space(space);
    uint64_t part[2] = {0, 0};
    uint32_t refused = cintrok_raw_field(lent.floats, lent.floats_count, run->wholes, CINTROK_RECORD_WHOLES, run->reals, CINTROK_RECORD_REALS, part, 2);
    return cintrok_inner_part(refused, space->floats, part, 1, values, count);
}

// The norms of the residual: the first before any pass, then one for each pass that added one.
static inline uint32_t cintrok_norms(const cintrok_run *run, const cintrok_space *space, const double **values, size_t *count)
{
    cintrok_space lent = cintrok_inner_space(space);
    uint64_t part[2] = {0, 0};
    uint32_t refused = cintrok_raw_norms(lent.floats, lent.floats_count, run->wholes, CINTROK_RECORD_WHOLES, run->reals, CINTROK_RECORD_REALS, part, 2);
    return cintrok_inner_part(refused, space->floats, part, 1, values, count);
}

// The field's gradients: x, y for each triangle, all 0 before the path starts. `count` counts gradients.
static inline uint32_t cintrok_gradients(const cintrok_run *run, const cintrok_space *space, const double **values, size_t *count)
{
    cintrok_space lent = cintrok_inner_space(space);
    uint64_t part[2] = {0, 0};
    uint32_t refused = cintrok_raw_gradients(lent.floats, lent.floats_count, run->wholes, CINTROK_RECORD_WHOLES, run->reals, CINTROK_RECORD_REALS, part, 2);
    return cintrok_inner_part(refused, space->floats, part, CINTROK_POINT_FLOATS, values, count);
}

// The points of the path: x, y of each, none before the path starts. `count` counts points.
static inline uint32_t cintrok_points(const cintrok_run *run, const cintrok_space *space, const double **values, size_t *count)
{
    cintrok_space lent = cintrok_inner_space(space);
    uint64_t part[2] = {0, 0};
    uint32_t refused = cintrok_raw_points(lent.path, lent.path_count, run->wholes, CINTROK_RECORD_WHOLES, run->reals, CINTROK_RECORD_REALS, part, 2);
    return cintrok_inner_part(refused, space->path, part, CINTROK_POINT_FLOATS, values, count);
}

#ifdef __cplusplus
}
#endif

#endif
