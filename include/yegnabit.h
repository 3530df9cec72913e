/* The C interface of Yegnabit: the calls of crates/yegnabit, which crates/yegnabit_c exports. `bash .ci/archives` writes the archive,
 * target/staticlib/libyegnabit.a.
 *
 * Every slice is a pointer and a length, counted in elements. Nothing is kept between calls and no memory is allocated. A pointer must
 * be valid for its length, also where that is 0 (then any aligned pointer but NULL); what a call writes to must overlap nothing else.
 *
 * Each call answers number + 256 * which + 65,536 * place. `number` is a refusal's number, 0 where nothing is refused. `which` says whose
 * refusal it is: enum yegnabit_which. `place` is the refusal's place, in 48 bits.
 * A lent area too short is 11 at place 0, before all else, and nothing is touched; then the plan is read, then the call's own work is
 * done. A refused call leaves `out` as it was. On success the bytes of the plan stand at the start of `out`, and the rest stays.
 *
 * Stack: yegnabit_run needs 256 KiB (89 KiB were measured with the deepest script), yegnabit_analyse 128 KiB (102 KiB at the worst pair),
 * each other call 32 KiB (7 KiB). tests/stack.c measures it. These figures and the times below were measured with the older kit.
 *
 * Time: every call ends, but yegnabit_run can take very long: no rule limits the turns of a script's loops. Two loops inside one another
 * over 512 items take some 11 ms with an empty body, three some 6 seconds; with a body of many steps and picks two take seconds, and
 * three about an hour. Run scripts that you do not know in a process with a time limit. The other calls take microseconds.
 *
 * Threads: the library keeps no state. Any number of threads may call it at the same time, each with lent areas of its own. They may share
 * plans, scripts and histories that nobody writes meanwhile. */

#ifndef YEGNABIT_H
#define YEGNABIT_H

#include <stddef.h>
#include <stdint.h>

#ifdef __cplusplus
extern "C" {
#endif

/* Refusals. */
enum yegnabit_refusal {
    YEGNABIT_KIND = 1,     /* kind byte not of this form */
    YEGNABIT_SHORT = 2,    /* a record or operand is cut off by the end */
    YEGNABIT_TAIL = 3,     /* bytes after the whole script */
    YEGNABIT_FIELD = 4,    /* a body field out of its range, a variable not bound */
    YEGNABIT_SIZE = 5,     /* 513th row, 65th script record, depth 17, ninth nested binder, 2,049th history record read */
    YEGNABIT_LINK = 6,     /* parent, mark or row order breaks the table's rules, or a history does not fit */
    YEGNABIT_TARGET = 7,   /* insert's target is not one element */
    YEGNABIT_ITEMS = 8,    /* a join or 'for' passes 512 items */
    /* 9 is retired, and its number is not used again */
    YEGNABIT_TABLE = 10,   /* new rows pass 512 */
    YEGNABIT_LENT = 11     /* a lent area is too short for its stated need */
};

/* Whose refusal it is. */
enum yegnabit_which {
    YEGNABIT_WHICH_AREA = 0,    /* a lent area's */
    YEGNABIT_WHICH_PLAN = 1,    /* the plan's */
    YEGNABIT_WHICH_SCRIPT = 2,  /* yegnabit_run: the script's or its run's */
    YEGNABIT_WHICH_HISTORY = 2, /* yegnabit_undo: the history's */
    YEGNABIT_WHICH_FIRST = 1,   /* yegnabit_analyse: the first script's */
    YEGNABIT_WHICH_SECOND = 2   /* yegnabit_analyse: the second script's */
};

/* What each lent area needs, in elements. */
enum yegnabit_need {
    YEGNABIT_OUT = 2080,           /* bytes: 512 rows and 8 marks */
    YEGNABIT_ANSWER_AREA = 512,    /* row numbers */
    YEGNABIT_HISTORY_AREA = 12288, /* bytes; a run fills at most 5,632, in at most 1,024 records */
    YEGNABIT_WORK_AREA = 32768,    /* two-byte numbers */
    YEGNABIT_DONE = 6              /* numbers of 64 bits */
};

/* What yegnabit_run leaves in `done`. */
enum yegnabit_done {
    YEGNABIT_DONE_ITEMS = 0,   /* items of the answer */
    YEGNABIT_DONE_MADE = 1,    /* rows made */
    YEGNABIT_DONE_CUT = 2,     /* links cut */
    YEGNABIT_DONE_RECORDS = 3, /* records written */
    YEGNABIT_DONE_HISTORY = 4, /* bytes of the history */
    YEGNABIT_DONE_OUT = 5      /* bytes of the plan in `out` */
};

/* What yegnabit_analyse answers as `which`, with number 0. */
enum yegnabit_answer { YEGNABIT_FREE = 0, YEGNABIT_UPWARD = 1, YEGNABIT_MEET = 2 };

/* The parts of an answer. */
static inline unsigned yegnabit_number(uint64_t answer) { return (unsigned)(answer & 0xff); }
static inline unsigned yegnabit_which(uint64_t answer) { return (unsigned)(answer >> 8 & 0xff); }
static inline uint64_t yegnabit_place(uint64_t answer) { return answer >> 16; }

/* Reads a stored plan and writes it back; place: the bytes written. */
uint64_t yegnabit_plan(const uint8_t *plan, size_t plan_length, uint8_t *out, size_t out_length);

/* Reads a plan, drops each row that is neither marked nor below a marked row, and writes it; place: the bytes written. */
uint64_t yegnabit_sweep(const uint8_t *plan, size_t plan_length, uint8_t *out, size_t out_length);

/* Reads a plan, runs a script on it and writes the plan as it then is; place: 0. After a run the answer's rows and the history stand at
 * the front of their areas, and the rest of these and all of `work` is zero. What `done` holds: enum yegnabit_done; numbers past the sixth
 * stay. One of the five areas too short: 11, and none of them is touched. After that a refused plan, script or run leaves `answer`,
 * `history`, `work` and the six numbers zero. */
uint64_t yegnabit_run(const uint8_t *plan, size_t plan_length, const uint8_t *script, size_t script_length,
                      uint16_t *answer, size_t answer_length, uint8_t *history, size_t history_length,
                      uint16_t *work, size_t work_length, uint8_t *out, size_t out_length,
                      uint64_t *done, size_t done_length);

/* Reads a plan, takes a run back by its history, and writes it; place: the bytes written. */
uint64_t yegnabit_undo(const uint8_t *plan, size_t plan_length, const uint8_t *history, size_t history_length,
                       uint8_t *out, size_t out_length);

/* Analyses two scripts. A refusal is the first's or the second's; else number is 0 and `which` is the answer: enum yegnabit_answer. */
uint64_t yegnabit_analyse(const uint8_t *first, size_t first_length, const uint8_t *second, size_t second_length);

#ifdef __cplusplus
}
#endif

#endif
