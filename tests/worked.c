/* 'Worked on plan P' of document 01, through the C interface. Expected answers, plans and histories follow from the document by hand; what
 * a refused call leaves, from the header. Exits 1 at the first difference. */

#include "yegnabit.h"

#include <stdio.h>
#include <stdlib.h>
#include <string.h>

/* An array and its length. */
#define ALL(array) (array), sizeof(array) / sizeof((array)[0])
/* A call's answer, by its parts. */
#define CODE(number, which, place) ((number) + 256u * (which) + UINT64_C(65536) * (place))
/* The answer where nothing is refused; not of an analysis, whose `which` is what it answers. */
#define ACCEPTED(place) CODE(0, 0, place)
/* The answer where a lent area is too short. */
#define TOO_SHORT CODE(YEGNABIT_LENT, YEGNABIT_WHICH_AREA, 0)

enum { ROW_BYTES = 4, ROWS = 512 };

static const uint8_t plan_p[] = {0x11, 0x01, 0xFF, 0xFF, 0x11, 0x02, 0x00, 0x00, 0x12, 0xFE, 0x01, 0x00,
                                 0x11, 0x03, 0x00, 0x00, 0x13, 0x00, 0x00, 0x00};

static const uint8_t script_a[] = {0x0D, 0x01, 0x00, 0x04, 0x00, 0x02, 0x00, 0x04, 0x00, 0x03, 0x02, 0x02, 0x00};
static const uint8_t script_b[] = {0x0C, 0x09, 0x04, 0x04, 0x00, 0x03, 0x03, 0x02, 0x00};
/* A with relation 2 */
static const uint8_t twin[] = {0x0D, 0x02, 0x00, 0x04, 0x00, 0x02, 0x00, 0x04, 0x00, 0x03, 0x02, 0x02, 0x00};
/* delete of children named 2 */
static const uint8_t delete_twos[] = {0x0B, 0x04, 0x00, 0x03, 0x02, 0x02, 0x00};
static const uint8_t leaves_below[] = {0x04, 0x01, 0x02, 0x00, 0x02, 0x00};
/* let x be the children named 2, join (delete x, leaves under x) */
static const uint8_t let_x[] = {0x06, 0x04, 0x00, 0x03, 0x02, 0x02, 0x00, 0x05, 0x0B, 0x03, 0x00, 0x04, 0x00, 0x02, 0x00, 0x03, 0x00};
static const uint8_t delete_root[] = {0x0B, 0x02, 0x00};
/* insert of row 1 twice into row 3 */
static const uint8_t twice[] = {0x0C, 0x05, 0x04, 0x00, 0x03, 0x02, 0x02, 0x00, 0x04, 0x00,
                                0x03, 0x02, 0x02, 0x00, 0x04, 0x00, 0x03, 0x03, 0x02, 0x00};
static const uint8_t insert_nothing[] = {0x0C, 0x01, 0x02, 0x00};
static const uint8_t new_element[] = {0x09, 0x04};
/* delete of children named 2, then a new element into nothing: a link is cut and a row made before the insert, at byte 8, is refused */
static const uint8_t late_target[] = {0x05, 0x0B, 0x04, 0x00, 0x03, 0x02, 0x02, 0x00, 0x0C, 0x09, 0x05, 0x01};
/* delete of all children, then a new element, at byte 8: with 512 rows 511 links are cut before that is refused */
static const uint8_t late_full[] = {0x05, 0x0B, 0x04, 0x00, 0x00, 0x00, 0x02, 0x00, 0x09, 0x04};
/* the parent of document 0's root */
static const uint8_t upward[] = {0x04, 0x02, 0x00, 0x00, 0x02, 0x00};
static const uint8_t empty[] = {0x01};
static const uint8_t nothing[1];

/* P after B: rows 4 (no parent) and 5 (parent 3), both elements named 4 */
static const uint8_t after_b[] = {0x11, 0x01, 0xFF, 0xFF, 0x11, 0x02, 0x00, 0x00, 0x12, 0xFE, 0x01, 0x00, 0x11, 0x03,
                                  0x00, 0x00, 0x11, 0x04, 0xFF, 0xFF, 0x11, 0x04, 0x03, 0x00, 0x13, 0x00, 0x00, 0x00};
static const uint8_t history_b[] = {0x41, 0x04, 0x00, 0x04, 0xFF, 0xFF, 0x41, 0x05, 0x00, 0x04, 0x03, 0x00};
/* P after the same rows copied twice: rows 4 to 7, parents 3, 4, 3, 6 */
static const uint8_t after_twice[] = {0x11, 0x01, 0xFF, 0xFF, 0x11, 0x02, 0x00, 0x00, 0x12, 0xFE, 0x01, 0x00,
                                      0x11, 0x03, 0x00, 0x00, 0x11, 0x02, 0x03, 0x00, 0x12, 0xFE, 0x04, 0x00,
                                      0x11, 0x02, 0x03, 0x00, 0x12, 0xFE, 0x06, 0x00, 0x13, 0x00, 0x00, 0x00};
/* P with row 1 cut from its parent, and the record of it */
static const uint8_t after_cut[] = {0x11, 0x01, 0xFF, 0xFF, 0x11, 0x02, 0xFF, 0xFF, 0x12, 0xFE, 0x01, 0x00,
                                    0x11, 0x03, 0x00, 0x00, 0x13, 0x00, 0x00, 0x00};
static const uint8_t history_cut[] = {0x43, 0x01, 0x00, 0x00, 0x00};
/* P after B, swept: row 4 goes, row 5 becomes row 4 */
static const uint8_t swept_b[] = {0x11, 0x01, 0xFF, 0xFF, 0x11, 0x02, 0x00, 0x00, 0x12, 0xFE, 0x01, 0x00,
                                  0x11, 0x03, 0x00, 0x00, 0x11, 0x04, 0x03, 0x00, 0x13, 0x00, 0x00, 0x00};
/* refused: the parent of row 2, at byte 8, is a leaf */
static const uint8_t leaf_parent[] = {0x11, 0x01, 0xFF, 0xFF, 0x12, 0x05, 0x00, 0x00, 0x12, 0x07, 0x01, 0x00};
/* refused: no history record has this kind */
static const uint8_t no_history[] = {0x40};

/* The lent areas; `done` has one number more than it needs. */
static uint16_t answer[YEGNABIT_ANSWER_AREA], work[YEGNABIT_WORK_AREA];
static uint8_t history[YEGNABIT_HISTORY_AREA], out[YEGNABIT_OUT];
static uint64_t done[YEGNABIT_DONE + 1];

static unsigned checks;

static void check(int holds, const char *what) {
    checks++;
    if (!holds) {
        fprintf(stderr, "worked: differs: %s\n", what);
        exit(1);
    }
}

/* The pattern that areas hold before a call. */
static uint8_t pattern(size_t place) { return (uint8_t)(0xA5 + 151 * place); }

static void fill(void *area, size_t size) {
    uint8_t *bytes = area;
    while (size-- > 0) bytes[size] = pattern(size);
}

/* Fills all lent areas with the pattern. */
static void fill_areas(void) {
    fill(answer, sizeof answer);
    fill(history, sizeof history);
    fill(work, sizeof work);
    fill(out, sizeof out);
    fill(done, sizeof done);
}

/* An area holds the pattern from a byte on. */
static int is_kept(const void *area, size_t from, size_t size) {
    const uint8_t *bytes = area;
    for (; from < size; from++)
        if (bytes[from] != pattern(from)) return 0;
    return 1;
}

/* An area is zero from a byte on. */
static int is_zero(const void *area, size_t from, size_t size) {
    const uint8_t *bytes = area;
    for (; from < size; from++)
        if (bytes[from] != 0) return 0;
    return 1;
}

/* The plan stands at the start of `out`, and the rest is as it was. */
static void check_out(const uint8_t *plan, size_t length, const char *what) {
    check(memcmp(out, plan, length) == 0, what);
    check(is_kept(out, length, sizeof out), what);
}

/* `out` is as it was. */
static void check_kept(const char *what) { check(is_kept(out, 0, sizeof out), what); }

/* An `out` that is one byte too short is refused first, even if the plan or the history would be refused too. */
static void plans(void) {
    uint64_t refused;
    fill_areas();
    check(yegnabit_plan(ALL(plan_p), out, sizeof out - 1) == TOO_SHORT, "plan P, an area too short");
    check(yegnabit_plan(ALL(leaf_parent), out, sizeof out - 1) == TOO_SHORT, "a refused plan, an area too short");
    check(yegnabit_plan(plan_p, 19, ALL(out)) == CODE(YEGNABIT_SHORT, YEGNABIT_WHICH_PLAN, 16), "plan P cut off in its mark");
    check_kept("what a refused plan leaves");
    check(yegnabit_plan(nothing, 0, ALL(out)) == ACCEPTED(0), "the empty plan");
    check_kept("what the empty plan leaves");
    check(yegnabit_plan(ALL(plan_p), ALL(out)) == ACCEPTED(sizeof plan_p), "plan P");
    check_out(ALL(plan_p), "plan P written back");

    fill_areas();
    check(yegnabit_sweep(ALL(after_b), out, sizeof out - 1) == TOO_SHORT, "a sweep, an area too short");
    check(yegnabit_sweep(ALL(leaf_parent), out, sizeof out - 1) == TOO_SHORT, "a refused sweep, an area too short");
    refused = yegnabit_sweep(ALL(leaf_parent), ALL(out));
    check(refused == CODE(YEGNABIT_LINK, YEGNABIT_WHICH_PLAN, 8), "a refused sweep");
    check(yegnabit_number(refused) == YEGNABIT_LINK, "its number");
    check(yegnabit_which(refused) == YEGNABIT_WHICH_PLAN, "whose it is");
    check(yegnabit_place(refused) == 8, "its place");
    check_kept("what a refused sweep leaves");
    check(yegnabit_sweep(ALL(after_b), ALL(out)) == ACCEPTED(sizeof swept_b), "P after B, swept");
    check_out(ALL(swept_b), "P after B, swept");
}

static void undone(void) {
    fill_areas();
    check(yegnabit_undo(ALL(after_b), ALL(history_b), out, sizeof out - 1) == TOO_SHORT, "B taken back, an area too short");
    check(yegnabit_undo(ALL(leaf_parent), ALL(no_history), out, sizeof out - 1) == TOO_SHORT, "a refused undo, an area too short");
    check(yegnabit_undo(ALL(leaf_parent), ALL(no_history), ALL(out)) == CODE(YEGNABIT_LINK, YEGNABIT_WHICH_PLAN, 8),
          "a refused plan comes before a refused history");
    check(yegnabit_undo(ALL(after_b), ALL(no_history), ALL(out)) == CODE(YEGNABIT_KIND, YEGNABIT_WHICH_HISTORY, 0), "a refused history");
    check(yegnabit_undo(ALL(plan_p), ALL(history_b), ALL(out)) == CODE(YEGNABIT_LINK, YEGNABIT_WHICH_HISTORY, 6),
          "B taken back from P itself");
    check_kept("what a refused undo leaves");
    check(yegnabit_undo(ALL(after_b), ALL(history_b), ALL(out)) == ACCEPTED(sizeof plan_p), "B taken back");
    check_out(ALL(plan_p), "P after B was taken back");
}

static void analysed(void) {
    check(yegnabit_analyse(ALL(script_a), ALL(script_b)) == CODE(0, YEGNABIT_FREE, 0), "A against B");
    check(yegnabit_analyse(ALL(delete_twos), ALL(script_a)) == CODE(0, YEGNABIT_MEET, 0), "delete of children named 2, against A");
    check(yegnabit_analyse(ALL(delete_twos), ALL(leaves_below)) == CODE(0, YEGNABIT_MEET, 0), "that delete against descendant leaves");
    check(yegnabit_analyse(ALL(script_b), ALL(script_b)) == CODE(0, YEGNABIT_FREE, 0), "B against B");
    check(yegnabit_analyse(ALL(script_a), ALL(upward)) == CODE(0, YEGNABIT_UPWARD, 0), "a parent step");
    check(yegnabit_analyse(nothing, 0, ALL(script_a)) == CODE(YEGNABIT_SHORT, YEGNABIT_WHICH_FIRST, 0), "an empty first script");
    check(yegnabit_analyse(ALL(script_a), nothing, 0) == CODE(YEGNABIT_SHORT, YEGNABIT_WHICH_SECOND, 0), "an empty second script");
}

/* A join of so many empty values, at least one: twice as many records less one. */
static size_t join(uint8_t *script, size_t values) {
    size_t n = 1;
    if (values == 1) {
        script[0] = 0x01;
        return 1;
    }
    script[0] = 0x05;
    n += join(script + n, values / 2);
    n += join(script + n, values - values / 2);
    return n;
}

/* A script's reading, by the refusal that it has in an analysis against one that is accepted. */
static uint64_t script_read(const uint8_t *script, size_t length) { return yegnabit_analyse(script, length, empty, sizeof empty); }

static void scripts(void) {
    uint8_t deep[17], wide[65];
    check(script_read(ALL(script_a)) == 0, "A read");
    check(script_read(nothing, 0) == CODE(YEGNABIT_SHORT, YEGNABIT_WHICH_FIRST, 0), "no bytes");

    wide[0] = wide[1] = 0x0B;
    check(join(wide + 2, 32) == 63, "63 records joined");
    check(script_read(wide + 1, 64) == 0, "64 records");
    check(script_read(wide, 65) == CODE(YEGNABIT_SIZE, YEGNABIT_WHICH_FIRST, 64), "65 records");

    memset(deep, 0x0B, sizeof deep);
    deep[16] = 0x01;
    check(script_read(deep + 1, 16) == 0, "depth 16");
    check(script_read(deep, 17) == CODE(YEGNABIT_SIZE, YEGNABIT_WHICH_FIRST, 16), "depth 17");
}

/* What a run is to leave. */
struct run {
    const char *name;
    const uint8_t *script;
    size_t script_length;
    uint64_t code;
    size_t items; /* the one item, if any, is row 2 */
    const uint8_t *history;
    uint64_t done[4]; /* rows made, links cut, records written, history bytes */
    const uint8_t *plan;
    size_t plan_length;
};

/* A refused plan, script or run leaves the run's areas and the numbers zero. */
static void check_run(const uint8_t *plan, size_t plan_length, struct run run) {
    fill_areas();
    check(yegnabit_run(plan, plan_length, run.script, run.script_length, ALL(answer), ALL(history), ALL(work), ALL(out), ALL(done)) ==
              run.code,
          run.name);
    check(done[YEGNABIT_DONE_ITEMS] == run.items, run.name);
    check(memcmp(&done[YEGNABIT_DONE_MADE], run.done, sizeof run.done) == 0, run.name);
    check(done[YEGNABIT_DONE_OUT] == run.plan_length, run.name);
    check(is_kept(done, YEGNABIT_DONE * sizeof done[0], sizeof done), run.name);
    check_out(run.plan, run.plan_length, run.name);
    check(run.items == 0 || answer[0] == 2, run.name);
    check(is_zero(answer, run.items * sizeof answer[0], sizeof answer), run.name);
    check(memcmp(history, run.history, run.done[3]) == 0, run.name);
    check(is_zero(history, run.done[3], sizeof history), run.name);
    check(is_zero(work, 0, sizeof work), run.name);
}

/* One area is an element too short, or empty: that comes before all else, a refused plan or script included, and every byte of every area
 * stays as it was. */
static void check_too_short(const uint8_t *plan, size_t plan_length, const uint8_t *script, size_t script_length) {
    size_t i;
    for (i = 0; i < 10; i++) {
        size_t lengths[] = {YEGNABIT_ANSWER_AREA, YEGNABIT_HISTORY_AREA, YEGNABIT_WORK_AREA, YEGNABIT_OUT, YEGNABIT_DONE};
        lengths[i % 5] = i < 5 ? lengths[i] - 1 : 0;
        fill_areas();
        check(yegnabit_run(plan, plan_length, script, script_length, answer, lengths[0], history, lengths[1], work, lengths[2], out,
                           lengths[3], done, lengths[4]) == TOO_SHORT,
              "a run, an area too short");
        check(is_kept(answer, 0, sizeof answer), "an answer area left alone");
        check(is_kept(history, 0, sizeof history), "a history area left alone");
        check(is_kept(work, 0, sizeof work), "a work area left alone");
        check(is_kept(done, 0, sizeof done), "numbers left alone");
        check_kept("an `out` left alone");
    }
}

static void runs(void) {
    static const uint8_t history_twice[] = {0x41, 0x04, 0x00, 0x02, 0x03, 0x00, 0x42, 0x05, 0x00, 0xFE, 0x04, 0x00,
                                            0x41, 0x06, 0x00, 0x02, 0x03, 0x00, 0x42, 0x07, 0x00, 0xFE, 0x06, 0x00};
    static const struct run on_p[] = {
        {"A", ALL(script_a), 0, 1, nothing, {0, 0, 0, 0}, ALL(plan_p)},
        {"A's twin", ALL(twin), 0, 0, nothing, {0, 0, 0, 0}, ALL(plan_p)},
        {"B", ALL(script_b), 0, 0, history_b, {2, 0, 2, 12}, ALL(after_b)},
        {"let x", ALL(let_x), 0, 1, history_cut, {0, 1, 1, 5}, ALL(after_cut)},
        {"delete of the root", ALL(delete_root), 0, 0, nothing, {0, 0, 0, 0}, ALL(plan_p)},
        {"row 1 twice into row 3", ALL(twice), 0, 0, history_twice, {4, 0, 4, 24}, ALL(after_twice)},
        {"the empty script", nothing, 0, CODE(YEGNABIT_SHORT, YEGNABIT_WHICH_SCRIPT, 0), 0, nothing, {0, 0, 0, 0}, nothing, 0},
        {"refused after changes", ALL(late_target), CODE(YEGNABIT_TARGET, YEGNABIT_WHICH_SCRIPT, 8), 0, nothing, {0, 0, 0, 0}, nothing, 0},
    };
    static const struct run on_refused = {
        "a refused plan", nothing, 0, CODE(YEGNABIT_LINK, YEGNABIT_WHICH_PLAN, 8), 0, nothing, {0, 0, 0, 0}, nothing, 0};
    static uint8_t full[ROWS * ROW_BYTES + ROW_BYTES];
    static const struct run on_full[] = {
        {"512 rows, nothing inserted", ALL(insert_nothing), 0, 0, nothing, {0, 0, 0, 0}, ALL(full)},
        {"512 rows, a new one", ALL(new_element), CODE(YEGNABIT_TABLE, YEGNABIT_WHICH_SCRIPT, 0), 0, nothing, {0, 0, 0, 0}, nothing, 0},
        {"512 rows, cuts, a row", ALL(late_full), CODE(YEGNABIT_TABLE, YEGNABIT_WHICH_SCRIPT, 8), 0, nothing, {0, 0, 0, 0}, nothing, 0},
    };
    size_t i;

    for (i = 0; i < sizeof on_p / sizeof on_p[0]; i++) check_run(ALL(plan_p), on_p[i]);
    check_run(ALL(leaf_parent), on_refused);
    check_too_short(ALL(plan_p), ALL(script_b));
    check_too_short(ALL(plan_p), nothing, 0);
    check_too_short(ALL(leaf_parent), ALL(script_b));
    check_too_short(ALL(leaf_parent), nothing, 0);

    /* 512 rows, all but the first under it, and document 0's mark */
    for (i = 0; i < ROWS; i++) {
        full[ROW_BYTES * i] = 0x11;
        full[ROW_BYTES * i + 1] = 1;
        full[ROW_BYTES * i + 2] = full[ROW_BYTES * i + 3] = i == 0 ? 0xFF : 0;
    }
    full[ROW_BYTES * ROWS] = 0x13;
    for (i = 0; i < sizeof on_full / sizeof on_full[0]; i++) check_run(ALL(full), on_full[i]);
}

int main(void) {
    plans();
    scripts();
    analysed();
    undone();
    runs();
    printf("worked: %u checks hold\n", checks);
    return 0;
}
