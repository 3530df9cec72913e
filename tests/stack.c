/* Measures the stack that each call takes, at the worst scripts known, and checks what include/yegnabit.h says of it.
 * A call runs on a stack filled with one byte; what it took reaches down to the last place where that byte is gone. */
#define _XOPEN_SOURCE 700 /* ucontext.h */
#include "yegnabit.h"
#include <stdio.h>
#include <string.h>
#include <ucontext.h>

#define ALL(array) (array), sizeof(array) / sizeof((array)[0]) /* an array and its length */
#define PUT(to, at, text) put(to, at, text, sizeof(text) - 1)

enum { ROOM = 1 << 20, FILL = 0xA5, DEPTH = 16, BINDERS = 8, ROWS = 512, RECORDS = 64 };

static uint8_t stack[ROOM], plan[4 * (ROWS + 1)], out[YEGNABIT_OUT], history[YEGNABIT_HISTORY_AREA], first[4096], second[4096];
static uint16_t answer[YEGNABIT_ANSWER_AREA], work[YEGNABIT_WORK_AREA];
static uint64_t done[YEGNABIT_DONE];
static size_t plan_length, first_length, second_length;
static uint64_t code; /* what the last call answered */
static int refused;   /* some call was refused */
static ucontext_t here, there;

static void call_plan(void) { code = yegnabit_plan(plan, plan_length, ALL(out)); }
static void call_sweep(void) { code = yegnabit_sweep(plan, plan_length, ALL(out)); }
static void call_undo(void) { code = yegnabit_undo(plan, plan_length, first, first_length, ALL(out)); }
static void call_analyse(void) { code = yegnabit_analyse(first, first_length, second, second_length); }
static void call_run(void) {
    code = yegnabit_run(plan, plan_length, first, first_length, ALL(answer), ALL(history), ALL(work), ALL(out), ALL(done));
}

/* Makes a call, and raises the most bytes that a call like it took. */
static void measure(size_t *most, void (*call)(void)) {
    size_t unused = 0;
    memset(stack, FILL, ROOM);
    getcontext(&there);
    there.uc_stack.ss_sp = stack;
    there.uc_stack.ss_size = ROOM;
    there.uc_link = &here;
    makecontext(&there, call, 0);
    swapcontext(&here, &there);
    refused |= yegnabit_number(code) != 0;
    while (unused < ROOM && stack[unused] == FILL) unused++;
    if (*most < ROOM - unused) *most = ROOM - unused;
}

static size_t put(uint8_t *to, size_t at, const char *bytes, size_t length) {
    memcpy(to + at, bytes, length);
    return at + length;
}

/* A level of an expression: a record with the empty values before the operand that goes deeper, how many empty values stand behind that
 * one, its records, and how often it can stand inside itself in a whole script. */
static const struct { const char *bytes; size_t length, behind, records, times; } levels[] = {
    {"\x0B", 1, 0, 1, DEPTH - 2},         {"\x04\x01\x00\x00", 4, 0, 1, DEPTH - 2}, {"\x0D\x00\x00", 3, 0, 1, DEPTH - 2},
    {"\x05\x01", 2, 0, 2, DEPTH - 2},     {"\x05", 1, 1, 2, DEPTH - 2},             {"\x0C\x01", 2, 0, 2, DEPTH - 2},
    {"\x0C", 1, 1, 2, DEPTH - 2},         {"\x08\x01\x01", 3, 0, 3, DEPTH - 2},     {"\x08", 1, 2, 3, DEPTH - 2},
    {"\x06\x01", 2, 0, 2, BINDERS},       {"\x06", 1, 1, 2, DEPTH - 2},             {"\x07\x01", 2, 0, 2, BINDERS},
    {"\x07", 1, 1, 2, DEPTH - 2},
};
enum { LEVELS = sizeof levels / sizeof levels[0] };

/* A level so many times around an expression. */
static size_t nested(uint8_t *to, size_t at, size_t level, size_t times, const char *inside, size_t length) {
    for (size_t i = 0; i < times; i++) at = put(to, at, levels[level].bytes, levels[level].length);
    at = put(to, at, inside, length);
    for (size_t i = 0; i < times * levels[level].behind; i++) at = PUT(to, at, "\x01");
    return at;
}

/* Eight loops, each inside the one before. The first is over all 512 rows. In the others the item x of the loop before decides: where x is
 * the leaf of value 1, over all leaves and x once more, else over x alone. That leaf is the tenth item: a loop does its first item, then
 * the others by halves, so it comes to the tenth of 512 with most frames. */
static size_t loops(uint8_t *to) {
    size_t at = PUT(to, 0, "\x07\x05\x04\x01\x00\x00\x02\x00\x02\x00");
    for (uint8_t x = 0; x + 1 < BINDERS; x++) {
        at = PUT(to, at, "\x07\x05\x04\x01\x00\x00\x04\x03\x00\x00\x0D\x00\x01\x03\x00\x03\x00");
        to[at - 1] = to[at - 3] = x;
    }
    return at;
}

/* A script that goes as deep as its level can and has many positions: the rest of its records delete what is below the root. */
static size_t deep_script(uint8_t *to, size_t level) {
    size_t times = levels[level].times, records = 2 + times * levels[level].records, depth = 3;
    size_t at = nested(to, PUT(to, 0, "\x05"), level, times, "\x02\x00", 2);
    for (; records + 5 <= RECORDS && depth + 2 <= DEPTH; records += 4, depth++)
        at = PUT(to, at, "\x05\x0B\x04\x01\x00\x00\x02\x00");
    return PUT(to, at, "\x01");
}

static int is_more(const char *name, size_t bytes, size_t kibibytes) {
    printf("%-8s %6zu bytes of stack; the header says %zu KiB\n", name, bytes, kibibytes);
    return bytes > kibibytes * 1024;
}

int main(void) {
    size_t run = 0, analyse = 0, others = 0;
    /* an element that document 0 marks, and 511 leaves under it, of which the tenth has the value 1 */
    plan_length = PUT(plan, 0, "\x11\x01\xFF\xFF");
    while (plan_length < 4 * ROWS) plan_length = PUT(plan, plan_length, "\x12\x00\x00\x00");
    plan[4 * 10 + 1] = 1;
    plan_length = PUT(plan, plan_length, "\x13\x00\x00\x00");
    measure(&others, call_plan);
    measure(&others, call_sweep);
    for (size_t level = 0; level < LEVELS; level++)
        for (size_t other = 0; other < LEVELS; other++) {
            first_length = deep_script(first, level);
            second_length = deep_script(second, other);
            measure(&analyse, call_analyse);
        }
    for (size_t level = 0; level < LEVELS; level++) {
        size_t times = DEPTH - BINDERS - 2, left = RECORDS - 5 - 7 * (BINDERS - 1) - 3; /* but for the loops and the innermost insert */
        if (levels[level].bytes[0] == 0x06 || levels[level].bytes[0] == 0x07) continue; /* a ninth binder */
        if (levels[level].bytes[0] == 0x0C) continue; /* its target would be nothing */
        while (times * levels[level].records > left) times--;
        first_length = nested(first, loops(first), level, times, "\x0C\x01\x02\x00", 4);
        measure(&run, call_run);
    }
    /* all below the root deleted, and that undone */
    first_length = PUT(first, 0, "\x0B\x04\x01\x00\x00\x02\x00");
    measure(&run, call_run);
    memcpy(plan, out, plan_length = done[YEGNABIT_DONE_OUT]);
    memcpy(first, history, first_length = done[YEGNABIT_DONE_HISTORY]);
    measure(&others, call_undo);
    if (refused) printf("a call was refused\n");
    return refused + is_more("run", run, 89) + is_more("analyse", analyse, 102) + is_more("others", others, 7);
}
