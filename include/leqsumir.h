/* Running a job, monitored or not, with its written turns or dispatched: the C functions of the static library librun.a. And counting the
 * messages of a run: leqsumir_tally, of libtally.a. The two can be linked together or each alone.
 *
 * Document 01, with requests S-1, S-2, S-4, S-5, S-7, S-9, S-11 and S-12 of document 02, says what a job is, what a run does, when a job
 * is refused and what the tally counts. "Monitored" is 01's "watched", "unmonitored" its "bare", "snapshot" its "end picture". All five
 * functions are proved to do what the definitions of 01, S-1, S-2, S-4, S-5, S-7, S-9, S-11 and S-12 say, for any bytes, lengths, budgets
 * and numbers of turns. */
#ifndef LEQSUMIR_H
#define LEQSUMIR_H

#include <stddef.h>
#include <stdint.h>

#ifdef __cplusplus
extern "C" {
#endif

/* Lengths that are enough for every job. A trace needs only LEQSUMIR_ENTRY_BYTES for each TURN of its job; of a dispatched job, for each
 * turn of the budget. */
#define LEQSUMIR_JOB_BYTES 16384     /* the longest job that is accepted */
#define LEQSUMIR_ENTRY_BYTES 7       /* an entry: node 1 byte, kind 1, number 1, value 4, lowest first */
#define LEQSUMIR_TRACE_BYTES 28672   /* 4,096 turns of 7 bytes */
#define LEQSUMIR_SNAPSHOT_BYTES 3136 /* asked of every job; the snapshot is 01's "end picture" */
#define LEQSUMIR_WORK_BYTES 4096     /* asked of every job: 2 bytes for each of 64 handler commands of 32 nodes */

/* What a caller must have:
 *
 *   job       the job's bytes, at most 16,384; the turns read the handler commands there, so nothing may write them during the call
 *   trace     7 bytes for each TURN of the job or, dispatched, for each turn of the budget, at most 28,672
 *   snapshot  3,136 bytes
 *   work      4,096 bytes
 *   answer    64 bytes; dispatched, 72; of the tally, 24
 *   counts    1,024 bytes, of the tally alone
 *   stack     a call takes less than 26,000 bytes of stack; 24,576 were measured, on x86-64, with less than 300 of the caller, and 12,248
 *             of the tally. (As rattle-kit-5b-plain compiled what it was then, less than 20,000; 18,128 and 12,240 measured.) The tables
 *             of the decoded job and the state of the run lie there, in no other memory.
 *   code      15,975 bytes with constants of librun.a and 7,686 of libtally.a, on x86-64, and memcpy and memset of the C library; no
 *             variables of their own
 *
 * A call takes no heap. */

/* The numbers of the answer. All are always written: eight, of a dispatched job nine. */
enum {
    LEQSUMIR_REFUSAL = 0, /* 0: the job ran; 1 to 12, 15 or 19: why it was refused, in the numbers of 01, of S-5 (15) and of S-7 (19); */
                          /* dispatched also those of S-2: 13, the budget is 0 or above 4,096; 14, the job has a TURN */
    LEQSUMIR_PLACE = 1,   /* of a refusal: the offset of the offending command, the first TURN for 14; 0 for 1 and 13, the job's length */
                          /* for 10 to 12 */
    LEQSUMIR_STOP = 2,    /* of a run: one of the stops below */
    LEQSUMIR_TURNS = 3,   /* of a run: the completed turns, which are the entries of the trace */
    LEQSUMIR_NODE = 4,    /* of a run: the attempted entry, from here to the value: zeros for stops 0 and 4, */
    LEQSUMIR_KIND = 5,    /* node and zeros for stop 2, the entry not made for stops 1 and 3, */
    LEQSUMIR_NUMBER = 6,  /* with value 0 for a read */
    LEQSUMIR_VALUE = 7,
    LEQSUMIR_ANSWER = 8,         /* how many numbers there are with written turns */
    LEQSUMIR_EXAMINED = 8,       /* of a dispatched run: the examined total, the sum over all choices; 0 for a refusal */
    LEQSUMIR_DISPATCH_ANSWER = 9 /* how many numbers there are of a dispatched job */
};

/* The numbers of the tally's answer: refusal and place, as above, and */
enum {
    LEQSUMIR_TALLY_NODES = 2, /* how many nodes the job has; 0 for a refusal */
    LEQSUMIR_TALLY_ANSWER = 3 /* how many numbers there are */
};

/* The counts of node n are from LEQSUMIR_NODE_COUNTS * n on. */
enum {
    LEQSUMIR_STARTED = 0,     /* its START commands */
    LEQSUMIR_RECEIVED = 1,    /* the entries of kind 6 whose node and port are wired to it */
    LEQSUMIR_TAKEN = 2,       /* its entries of kind 1 */
    LEQSUMIR_WAITING = 3,     /* the waiting count in the snapshot */
    LEQSUMIR_NODE_COUNTS = 4, /* how many counts a node has */
    LEQSUMIR_COUNTS = 128     /* enough for every job: those of 32 nodes */
};

/* Why a run stopped. */
enum {
    LEQSUMIR_RAN_OUT = 0,     /* every turn was completed; dispatched, as many as are budgeted */
    LEQSUMIR_FORBIDDEN = 1,   /* the lists do not permit the entry; monitored runs alone */
    LEQSUMIR_UNREADY = 2,     /* the node is idle and no message waits; written turns alone */
    LEQSUMIR_FULL = 3,        /* a target of the send already holds 16 messages */
    LEQSUMIR_NOBODY_READY = 4 /* turns of the budget are left, and no node is ready; dispatched runs alone */
};

/* Runs a job and stops before the first turn whose entry its lists do not permit.
 *
 *   job, job_len            the job's bytes; only read
 *   trace, trace_len        gets 7 bytes for each completed turn; the number of an entry of kind 1, a message taken, is the sender of
 *                           the message, 255 for START
 *   snapshot, snapshot_len  gets the state that the run left: each node in order with position (1 byte, 255 idle), accumulator (4),
 *                           message (4), waiting count (1), waiting messages, oldest first, each with its sender's node number behind
 *                           it (4 and 1; the sender is 255 for START); then each variable (4)
 *   work, work_len          during the run, for each handler command, its place in the job; after a run its first 4,096 bytes are 0
 *   answer                  gets the eight numbers: for a refusal the last six are 0, for a run the first two
 *
 * Any bytes and any lengths are allowed, 0 included, and the buffers may hold anything before. A short buffer is a refusal (10 trace,
 * 11 snapshot, 12 work). A refusal changes none of the three buffers. Bytes beyond those named stay unchanged.
 *
 * Of the caller: each pointer is to memory of its length, none is NULL (with length 0 it may point anywhere else), and the five do not
 * overlap. No pointer is kept. */
void leqsumir_run_monitored(const uint8_t *job, size_t job_len, uint8_t *trace, size_t trace_len, uint8_t *snapshot,
                            size_t snapshot_len, uint8_t *work, size_t work_len, uint64_t answer[8]);

/* The same without the lists: a run that ignores them, with the same refusals. */
void leqsumir_run_unmonitored(const uint8_t *job, size_t job_len, uint8_t *trace, size_t trace_len, uint8_t *snapshot,
                              size_t snapshot_len, uint8_t *work, size_t work_len, uint64_t answer[8]);

/* Dispatches a job, monitored: a job without TURN, and at most so many turns as the budget says.
 *
 * A node is ready unless it is idle with an empty queue. Before each turn there is a choice: nodes are examined one after the other, the
 * first time from node 0 on, later from the node after the one served last, round to that one itself; the first ready one gets the turn.
 * If nobody is ready, the run ends, and no node is examined for that: how many are ready is kept from turn to turn. When the budgeted
 * turns are made, no further choice is made.
 *
 *   budget   1 to 4,096; every other number is a refusal, 13, that goes before all others
 *   answer   gets nine numbers: those of a run, and how many nodes were examined for all choices, a last one whose turn is stopped
 *            included, and none for a fruitless one
 *
 * A job with a TURN is refused by 14, after 1 to 9, 15 and 19 and before 10 to 12. Refusal 10 asks for 7 bytes for each turn of the
 * budget, made or not. All else is as above. */
void leqsumir_dispatch_monitored(const uint8_t *job, size_t job_len, uint64_t budget, uint8_t *trace, size_t trace_len,
                                 uint8_t *snapshot, size_t snapshot_len, uint8_t *work, size_t work_len, uint64_t answer[9]);

/* The same without the lists. */
void leqsumir_dispatch_unmonitored(const uint8_t *job, size_t job_len, uint64_t budget, uint8_t *trace, size_t trace_len,
                                   uint8_t *snapshot, size_t snapshot_len, uint8_t *work, size_t work_len, uint64_t answer[9]);

/* Counts the messages of each node, from what a run handed over.
 *
 *   job, job_len            the job of the run
 *   turns                   how many entries of the trace count: LEQSUMIR_TURNS of the run's answer. Of a trace that was kept without the
 *                           bytes behind its entries any number will do that is not below theirs
 *   trace, trace_len        the trace of the run
 *   snapshot, snapshot_len  its snapshot
 *   counts                  gets four numbers for each node of the job: started, received, taken, waiting
 *   answer                  gets three numbers: refusal and place, and the number of nodes; for a refusal the last is 0, else the first
 *                           two
 *
 * After every run, monitored or not, written or dispatched, whatever its stop, with what it left: started + received = taken + waiting,
 * for each node. A START counts whether it is taken or not, an entry of kind 6 once for each target of its port, and a SEND that was
 * stopped nowhere.
 *
 * Look at the run's LEQSUMIR_REFUSAL first: of a run that was refused there is nothing to tally. One refused by 10 to 14 is not refused
 * here, and the counts are then those of whatever the buffers hold.
 *
 * Any bytes, lengths and numbers are allowed. The job is refused by 1 to 9, 15 or 19, as a run of its written turns refuses it; buffers
 * and TURN commands play no part, so 10 to 14 do not occur. A refusal changes none of the counts, and those beyond the job's nodes stay
 * unchanged. A trace that holds fewer than `turns` entries is counted as far as it holds entries in full. An entry whose node the job does
 * not have, or whose port no wire has, counts nowhere. A byte that the snapshot does not have reads as 0.
 *
 * Job, trace and snapshot are only read, and no work buffer is needed. Of the caller: as above; the three that are read may overlap each
 * other, counts and answer overlap nothing. */
void leqsumir_tally(const uint8_t *job, size_t job_len, uint64_t turns, const uint8_t *trace, size_t trace_len,
                    const uint8_t *snapshot, size_t snapshot_len, uint64_t counts[128], uint64_t answer[3]);

#ifdef __cplusplus
}
#endif

#endif
