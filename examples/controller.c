// A small controller: runs a sheet to the end of its path in steps, with a mark and a way back in between, and prints what the program `spiral` prints, then the path's length.
//
//     controller [--short] SHEETFILE [STEP]
//
// STEP is how many passes an advance makes, 100 if it is not given. --short lends one path place too few, which is refused.
// Status: 0, 1 where something was refused, 2 for wrong use, a file that cannot be read, no memory or an output that cannot be written.

#ifndef _POSIX_C_SOURCE
#define _POSIX_C_SOURCE 200809L
#endif

#include "cintrok.h"

#include <inttypes.h>
#include <stdio.h>
#include <stdlib.h>
#include <string.h>
#include <unistd.h>

#define FAILED 2

typedef struct {
    const char *file;
    uint32_t step;
    bool lends_too_little;
} Options;

typedef struct {
    uint8_t *bytes;
    size_t count;
} Sheet;

static bool read_step(const char *text, uint32_t *step)
{
    char *end;
    unsigned long long number = strtoull(text, &end, 10);
    if (text[0] < '0' || text[0] > '9' || *end != '\0' || number == 0 || number > UINT32_MAX) {
        return false;
    }
    *step = (uint32_t)number;
    return true;
}

static bool read_options(int count, char **words, Options *options)
{
    int next = 1;
    options->step = 100;
    options->lends_too_little = next < count && strcmp(words[next], "--short") == 0;
    next += options->lends_too_little;
    if (next == count || count - next > 2) {
        return false;
    }
    options->file = words[next];
    return next + 1 == count || read_step(words[next + 1], &options->step);
}

// One byte more than any accepted sheet has is read, so that a longer file is refused like any other.
static bool read_sheet(const char *name, Sheet *sheet)
{
    const size_t most = CINTROK_MAX_SHEET_BYTES + 1;
    bool was_read;
    FILE *file = fopen(name, "rb");
    if (file == NULL) {
        perror(name);
        return false;
    }
    sheet->bytes = (uint8_t *)malloc(most);
    sheet->count = sheet->bytes == NULL ? 0 : fread(sheet->bytes, 1, most, file);
    was_read = sheet->bytes != NULL && ferror(file) == 0;
    if (!was_read) {
        perror(name);
    }
    fclose(file);
    return was_read;
}

// ---- space

static uint32_t needed_space(const Sheet *sheet, cintrok_space *space)
{
    cintrok_sheet checked;
    uint32_t refused = cintrok_check(sheet->bytes, sheet->count, &checked);
    if (refused != 0) {
        return refused;
    }
    uint64_t limit = checked.settings.has_limit ? checked.settings.limit : CINTROK_DEFAULT_LIMIT;
    return cintrok_space_needed(checked.n, checked.t, limit, checked.settings.room, space);
}

static void free_space(const cintrok_space *space)
{
    free(space->floats);
    free(space->words);
    free(space->path);
}

static bool allocate_space(cintrok_space *space)
{
    space->floats = (double *)malloc(space->floats_count * sizeof(double));
    space->words = (uint32_t *)malloc(space->words_count * sizeof(uint32_t));
    space->path = (double *)malloc(space->path_count * sizeof(double));
    return space->floats != NULL && space->words != NULL && space->path != NULL;
}

// ---- the run

// One line on a terminal, written over at each step, and ended by run_sheet.
static void show_progress(const cintrok_run *run, const cintrok_space *space)
{
    const double *points;
    size_t count;
    if (isatty(fileno(stderr)) && cintrok_points(run, space, &points, &count) == 0) {
        fprintf(stderr, "\rplace %" PRIu64 ", %zu points ", cintrok_place(run), count);
    }
}

static void end_progress(void)
{
    if (isatty(fileno(stderr))) {
        fputc('\n', stderr);
    }
}

// Half way: the field has its end, and the path is still to come or, after a large step, there already.
static uint32_t advance_half_way(cintrok_run *run, uint32_t step, const cintrok_space *space)
{
    uint32_t refused = 0;
    while (refused == 0 && cintrok_field_end(run) == CINTROK_FIELD_UNFINISHED) {
        refused = cintrok_advance(run, step, space);
        show_progress(run, space);
    }
    return refused;
}

// A look back at an earlier place; the mark keeps the way to this one.
static uint32_t look_back(cintrok_run *run, uint32_t step, const cintrok_space *space)
{
    uint32_t refused = cintrok_mark(run, space);
    if (refused == 0) {
        refused = cintrok_back(run, step, space);
    }
    return refused == 0 ? cintrok_return(run, space) : refused;
}

static uint32_t advance_to_end(cintrok_run *run, uint32_t step, const cintrok_space *space)
{
    uint32_t refused = 0;
    while (refused == 0 && cintrok_path_end(run) == CINTROK_PATH_UNFINISHED) {
        refused = cintrok_advance(run, step, space);
        show_progress(run, space);
    }
    return refused;
}

static uint32_t run_sheet(const Sheet *sheet, uint32_t step, const cintrok_space *space, cintrok_run *run)
{
    uint32_t refused = cintrok_open(sheet->bytes, sheet->count, space, run);
    if (refused != 0) {
        return refused;
    }
    refused = advance_half_way(run, step, space);
    if (refused == 0) {
        refused = look_back(run, step, space);
    }
    if (refused == 0) {
        refused = advance_to_end(run, step, space);
    }
    // what is said next, a refusal too, stands on a line of its own
    end_progress();
    return refused;
}

// ---- output

// Every NaN is printed as the same one.
static uint64_t bits_of(double number)
{
    uint64_t bits = UINT64_C(0x7ff8000000000000);
    if (number == number) {
        memcpy(&bits, &number, sizeof bits);
    }
    return bits;
}

// What a run shows: the function that shows it, the letter of its lines and how many doubles a line has.
typedef struct {
    uint32_t (*show)(const cintrok_run *run, const cintrok_space *space, const double **values, size_t *count);
    char letter;
    size_t width;
} Part;

static uint32_t print_part(const Part *part, const cintrok_run *run, const cintrok_space *space)
{
    const double *values;
    size_t count;
    uint32_t refused = part->show(run, space, &values, &count);
    if (refused != 0) {
        return refused;
    }
    for (size_t line = 0; line < count; line++) {
        putchar(part->letter);
        for (size_t i = 0; i < part->width; i++) {
            printf(" %016" PRIx64, bits_of(values[line * part->width + i]));
        }
        putchar('\n');
    }
    return 0;
}

static uint32_t print_run(const cintrok_run *run, const cintrok_space *space)
{
    static const Part parts[] = {
        {cintrok_field, 'u', 1}, {cintrok_norms, 'r', 1}, {cintrok_gradients, 'g', CINTROK_POINT_FLOATS}, {cintrok_points, 'p', CINTROK_POINT_FLOATS}};
    double length;
    uint32_t refused = cintrok_length(run, space, &length);
    if (refused != 0) {
        return refused;
    }
    printf("end %" PRIu64 " %" PRIu64 " %" PRIu64 "\n", cintrok_place(run), cintrok_field_end(run), cintrok_path_end(run));
    for (size_t i = 0; refused == 0 && i < sizeof parts / sizeof parts[0]; i++) {
        refused = print_part(&parts[i], run, space);
    }
    if (refused == 0) {
        printf("length %.17g\n", length);
    }
    return refused;
}

// ---- the program

static int explain(uint32_t refused)
{
    if (refused == 0) {
        return 0;
    }
    printf("refused %" PRIu32 "\n", refused);
    fprintf(stderr, "controller: refused %" PRIu32 ": %s\n", refused, cintrok_refusal_text(refused));
    return 1;
}

static int control(const Options *options, const Sheet *sheet)
{
    cintrok_space space;
    cintrok_run run;
    int status = FAILED;
    uint32_t refused = needed_space(sheet, &space);
    if (refused != 0) {
        return explain(refused);
    }
    space.path_count -= options->lends_too_little;
    if (allocate_space(&space)) {
        refused = run_sheet(sheet, options->step, &space, &run);
        status = explain(refused == 0 ? print_run(&run, &space) : refused);
    } else {
        fputs("controller: no memory\n", stderr);
    }
    free_space(&space);
    return status;
}

int main(int count, char **words)
{
    Options options;
    Sheet sheet = {NULL, 0};
    int status = FAILED;
    if (!read_options(count, words, &options)) {
        fputs("controller [--short] SHEETFILE [STEP], STEP from 1 to 4294967295\n", stderr);
        return FAILED;
    }
    if (read_sheet(options.file, &sheet)) {
        status = control(&options, &sheet);
    }
    free(sheet.bytes);
    if (fflush(stdout) != 0 || ferror(stdout) != 0) {
        perror("controller: standard output");
        return FAILED;
    }
    return status;
}
