/* Asks whether two scripts are free, runs one and then the other on a plan, and prints what came of it.
 * The files plan, first and second are in the folder that it is started in, such as examples/p. */
#include "yegnabit.h"
#include <stdio.h>
#include <stdlib.h>
#include <string.h>
#define ALL(array) (array), sizeof(array) / sizeof((array)[0]) /* an array and its length */

static uint8_t plan[4096], first[4096], second[4096], out[YEGNABIT_OUT], history[YEGNABIT_HISTORY_AREA];
static uint16_t answer[YEGNABIT_ANSWER_AREA], work[YEGNABIT_WORK_AREA];
static uint64_t done[YEGNABIT_DONE], length; /* length: the plan's */

/* The first 4,096 bytes of a file are enough: a longer plan or script is refused anyway. */
static size_t load(const char *name, uint8_t *bytes) {
    FILE *file = fopen(name, "rb");
    if (!file) perror(name), exit(1);
    size_t read = fread(bytes, 1, 4096, file);
    fclose(file);
    return read;
}

/* `which` of an answer; a refusal ends the program. */
static unsigned accepted(const char *call, uint64_t code) {
    unsigned number = yegnabit_number(code), which = yegnabit_which(code);
    if (number == 0) return which;
    fprintf(stderr, "%s refused: number %u, which %u, place %llu\n", call, number, which, (unsigned long long)yegnabit_place(code));
    exit(1);
}

/* Runs a script on the plan, and tells what it did. */
static void run(const char *name, const uint8_t *script, size_t bytes) {
    accepted(name, yegnabit_run(plan, length, script, bytes, ALL(answer), ALL(history), ALL(work), ALL(out), ALL(done)));
    printf("%s: %u rows made, %u links cut, rows answered:", name, (unsigned)done[YEGNABIT_DONE_MADE], (unsigned)done[YEGNABIT_DONE_CUT]);
    for (size_t i = 0; i < done[YEGNABIT_DONE_ITEMS]; i++) printf(" %u", answer[i]);
    memcpy(plan, out, length = done[YEGNABIT_DONE_OUT]);
    printf("\nplan: %u bytes\n", (unsigned)length);
}

int main(void) {
    const char *texts[] = {"free", "upward", "meet"};
    size_t one = load("first", first), two = load("second", second);
    length = load("plan", plan);
    printf("%s\n", texts[accepted("analysis", yegnabit_analyse(first, one, second, two))]);
    run("first", first, one);
    run("second", second, two);
}
