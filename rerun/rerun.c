/* Reruns a job file through the proved static libraries, monitored and unmonitored, counts the messages of each node and says where the two
 * part. With a budget both runs are dispatched.
 * At the repository's root:
 *     tools/staticlibs
 *     gcc -O2 -Wall -Wextra -Iinclude -o target/rerun rerun/rerun.c target/staticlib/librun.a target/staticlib/libtally.a
 *     target/rerun examples/k2.job
 *     target/rerun examples/email-dispatched.job 12 */
#include <ctype.h>
#include <errno.h>
#include <inttypes.h>
#include <stdio.h>
#include <stdlib.h>
#include <string.h>

#include "leqsumir.h"

typedef void run(const uint8_t *, size_t, uint8_t *, size_t, uint8_t *, size_t, uint8_t *, size_t, uint64_t *);
typedef void dispatch(const uint8_t *, size_t, uint64_t, uint8_t *, size_t, uint8_t *, size_t, uint8_t *, size_t, uint64_t *);

/* What a run hands over. */
struct rerun {
    uint8_t trace[LEQSUMIR_TRACE_BYTES], snapshot[LEQSUMIR_SNAPSHOT_BYTES], work[LEQSUMIR_WORK_BYTES];
    uint64_t answer[LEQSUMIR_DISPATCH_ANSWER];
};

static void rerun(run *run, const uint8_t *job, size_t length, struct rerun *to) {
    run(job, length, to->trace, sizeof to->trace, to->snapshot, sizeof to->snapshot, to->work, sizeof to->work, to->answer);
}

static void redispatch(dispatch *dispatch, const uint8_t *job, size_t length, uint64_t budget, struct rerun *to) {
    dispatch(job, length, budget, to->trace, sizeof to->trace, to->snapshot, sizeof to->snapshot, to->work, sizeof to->work, to->answer);
}

static void print_answer(const char *name, const uint64_t *answer, int is_dispatched) {
    if (answer[LEQSUMIR_REFUSAL] != 0) {
        printf("%s: refused %" PRIu64 " %" PRIu64 "\n", name, answer[LEQSUMIR_REFUSAL], answer[LEQSUMIR_PLACE]);
        return;
    }
    printf("%s: stop %" PRIu64 ", turns %" PRIu64 ", attempted %" PRIu64 " %" PRIu64 " %" PRIu64 " %" PRIu64, name,
           answer[LEQSUMIR_STOP], answer[LEQSUMIR_TURNS], answer[LEQSUMIR_NODE], answer[LEQSUMIR_KIND], answer[LEQSUMIR_NUMBER],
           answer[LEQSUMIR_VALUE]);
    if (is_dispatched)
        printf(", examined %" PRIu64, answer[LEQSUMIR_EXAMINED]);
    printf("\n");
}

/* A line for each node: started, received, taken, waiting. Nothing of a refused job. */
static void print_tally(const char *name, const uint8_t *job, size_t length, const struct rerun *of) {
    uint64_t counts[LEQSUMIR_COUNTS], answer[LEQSUMIR_TALLY_ANSWER];
    if (of->answer[LEQSUMIR_REFUSAL] != 0)
        return;
    leqsumir_tally(job, length, of->answer[LEQSUMIR_TURNS], of->trace, sizeof of->trace, of->snapshot, sizeof of->snapshot, counts,
                   answer);
    for (uint64_t node = 0; node < answer[LEQSUMIR_TALLY_NODES]; node++) {
        const uint64_t *own = counts + LEQSUMIR_NODE_COUNTS * node;
        printf("%s: tally %" PRIu64 " %" PRIu64 " %" PRIu64 " %" PRIu64 " %" PRIu64 "\n", name, node, own[LEQSUMIR_STARTED],
               own[LEQSUMIR_RECEIVED], own[LEQSUMIR_TAKEN], own[LEQSUMIR_WAITING]);
    }
}

static const uint8_t *entry_at(const struct rerun *of, uint64_t turn) {
    return of->trace + LEQSUMIR_ENTRY_BYTES * turn;
}

/* An entry as the printing program prints it: node, kind, number, value. */
static void print_entry(const uint8_t *e) {
    uint32_t value = e[3] | (uint32_t)e[4] << 8 | (uint32_t)e[5] << 16 | (uint32_t)e[6] << 24;
    printf("%d %d %d %" PRIu32, e[0], e[1], e[2], value);
}

/* The first turn at which one run made an entry that the other did not make. */
static void print_parting(const struct rerun *monitored, const struct rerun *unmonitored) {
    uint64_t turn = 0;
    while (turn < monitored->answer[LEQSUMIR_TURNS] && turn < unmonitored->answer[LEQSUMIR_TURNS] &&
           memcmp(entry_at(monitored, turn), entry_at(unmonitored, turn), LEQSUMIR_ENTRY_BYTES) == 0)
        turn++;
    if (turn == unmonitored->answer[LEQSUMIR_TURNS]) {
        printf("they do not part\n");
        return;
    }
    printf("they part at turn %" PRIu64 ": unmonitored, the entry ", turn);
    print_entry(entry_at(unmonitored, turn));
    printf(" is made\n");
}

/* A decimal number, and nothing else. */
static int read_budget(const char *word, uint64_t *budget) {
    char *end;
    errno = 0;
    *budget = strtoull(word, &end, 10);
    return isdigit((unsigned char)word[0]) && *end == '\0' && errno == 0;
}

int main(int count, char **words) {
    static uint8_t job[LEQSUMIR_JOB_BYTES + 1]; /* one byte more than the longest job is enough to refuse it */
    static struct rerun monitored, unmonitored;
    uint64_t budget = 0;
    int is_dispatched = count == 3 && read_budget(words[2], &budget);
    FILE *file = count == 2 || is_dispatched ? fopen(words[1], "rb") : NULL;
    if (file == NULL) {
        fprintf(stderr, "usage: rerun JOB [BUDGET], a file that can be read and a number\n");
        return 2;
    }
    size_t length = fread(job, 1, sizeof job, file);
    fclose(file);
    if (is_dispatched) {
        redispatch(leqsumir_dispatch_monitored, job, length, budget, &monitored);
        redispatch(leqsumir_dispatch_unmonitored, job, length, budget, &unmonitored);
    } else {
        rerun(leqsumir_run_monitored, job, length, &monitored);
        rerun(leqsumir_run_unmonitored, job, length, &unmonitored);
    }
    print_answer("monitored", monitored.answer, is_dispatched);
    print_answer("unmonitored", unmonitored.answer, is_dispatched);
    print_tally("monitored", job, length, &monitored);
    print_tally("unmonitored", job, length, &unmonitored);
    print_parting(&monitored, &unmonitored);
    return 0;
}
