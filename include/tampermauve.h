/* The plan engine's calls for C and C++.
 *
 * Link with libtampermauve.a. It needs no other library, and no start-up or shut-down call.
 *
 * Rules for every call
 *   - A byte buffer passes as a pointer and then its length in bytes. The call reads and writes inside that length only.
 *   - A pointer is never NULL, also where the length is 0. Bytes need no alignment.
 *   - `file`, `turns`, `files` and `lengths` are only read. `memory`, `log`, `report` and `work`, and for many plans `memories`,
 *     `logs`, `reports` and `answers`, are lent: the call may write them, and the caller owns them before and after. A lent buffer
 *     overlaps no other buffer of the same call.
 *   - No call keeps a pointer, allocates memory or has a state of its own. Calls at the same time, from several threads,
 *     are fine as long as no call writes a buffer that another one uses.
 *   - Every input of these types is answered. A wrong length or wrong content is refused by number, never a fault.
 *   - A refusal changes no byte of any buffer. Among many plans, one that is refused has no byte of its memory, log and report
 *     changed.
 *   - A call uses less than TAMPERMAUVE_STACK_LIMIT bytes of the caller's stack (`make test-stack` measures it: some 360 for a
 *     check, 1,680 for a run and 2,160 for a run of many plans).
 */
#ifndef TAMPERMAUVE_H
#define TAMPERMAUVE_H

#include <stddef.h>
#include <stdint.h>

#ifdef __cplusplus
extern "C" {
#endif

/* ---- The version of the library that this header fits. A host that was compiled with a header of version 1 lends a report of 16
 *      bytes, and its runs are refused with 11: compile it anew. 2.1 has one call more than 2.0, tampermauve_run_all, with its refusal
 *      15, and nothing else is changed: a host that was compiled with a header of 2.0 can stay as it is. In 2.2 locks have names: a
 *      worker that locks one which it holds, or unlocks one which it does not hold, fails, where before only the count of its locks
 *      mattered. Calls, buffers, formats and numbers are those of 2.1, and hosts that were compiled with a header of 2.0 or 2.1 can
 *      stay as they are. A plan that does neither ends as it did; one that does is to be approved anew. */

#define TAMPERMAUVE_VERSION_MAJOR 2
#define TAMPERMAUVE_VERSION_MINOR 2
#define TAMPERMAUVE_VERSION_PATCH 0
#define TAMPERMAUVE_VERSION "2.2.0"

/* ---- What a call returns: refusal + 256 x index, where index is that of a record of the file, the plan record being 0.
 *      The index is 0 for the refusals 1, 11, 12, 13 and 15. An accepted call returns 0. */

#define TAMPERMAUVE_ACCEPTED UINT32_C(0)

/* caused by the author of the file */
#define TAMPERMAUVE_BAD_LENGTH UINT32_C(1)      /* file length 0, not a multiple of 7, or above 7,280 */
#define TAMPERMAUVE_BAD_MARK UINT32_C(2)        /* a record does not begin with 4D 50 */
#define TAMPERMAUVE_BAD_PLAN UINT32_C(3)        /* the first record is no plan record within its limits, or op 0 later */
#define TAMPERMAUVE_BAD_BARRIER UINT32_C(4)     /* barrier record out of order, after a sleep record or step, or out of range */
#define TAMPERMAUVE_BAD_WORKER UINT32_C(5)      /* a step's worker is not below n, or falls */
#define TAMPERMAUVE_BAD_OP UINT32_C(6)          /* unknown op */
#define TAMPERMAUVE_BAD_OPERAND UINT32_C(7)     /* register or number out of the op's range; a start of a worker not below n */
#define TAMPERMAUVE_TOO_MANY_STEPS UINT32_C(8)  /* a worker's 129th step */
#define TAMPERMAUVE_NO_SIZE UINT32_C(9)         /* a barrier step whose barrier has no record */
#define TAMPERMAUVE_SKIP_TOO_FAR UINT32_C(10)   /* a skip that lands further than just behind the last step */
#define TAMPERMAUVE_BAD_SLEEP UINT32_C(14)      /* sleep record of worker 0, of one not below n, out of order, after a step, or
                                                   with a register or number not zero; it is tested where 4 is */

/* caused by the host */
#define TAMPERMAUVE_BAD_BUFFER UINT32_C(11)     /* a lent buffer of another length; of those of many plans `work` alone */
#define TAMPERMAUVE_TOO_MANY_TURNS UINT32_C(12) /* a turn list above 65,535 bytes */
#define TAMPERMAUVE_BAD_BATCH UINT32_C(15)      /* many plans: their count is not 1 to 40, their lengths do not add up to the bytes of
                                                   `files`, or a buffer other than `work` is not the count times its unit */

/* caused by whoever picks the turns */
#define TAMPERMAUVE_BAD_TURN UINT32_C(13)       /* a turn that names a worker not below n */

/* The two parts of a returned number. */
static inline uint32_t tampermauve_refusal(uint32_t returned) { return returned % 256u; }
static inline uint32_t tampermauve_index(uint32_t returned) { return returned / 256u; }

/* ---- Lengths, in bytes */

#define TAMPERMAUVE_MEMORY_LENGTH 2048u
#define TAMPERMAUVE_LOG_LENGTH 8256u
#define TAMPERMAUVE_REPORT_LENGTH 20u
#define TAMPERMAUVE_WORK_LENGTH 32768u

#define TAMPERMAUVE_FILE_LIMIT 7280u   /* the longest file that is not refused for its length: 1 + 8 + 7 + 8 x 128 records */
#define TAMPERMAUVE_TURNS_LIMIT 65535u /* the longest list of turns; a turn is one byte */
#define TAMPERMAUVE_RECORD_LENGTH 7u   /* a record of the file */
#define TAMPERMAUVE_ENTRY_LENGTH 8u    /* a record of the log */

#define TAMPERMAUVE_STACK_LIMIT 4096u  /* stack of a call: measured, and rounded up */

/* ---- Many plans in one call */

#define TAMPERMAUVE_PLANS_LIMIT 40u    /* the most plans of a call; the least is 1 */
#define TAMPERMAUVE_LENGTH_BYTES 4u    /* the bytes of one number in `lengths` */

/* ---- Limits of a plan */

#define TAMPERMAUVE_WORKERS_LIMIT 8u   /* workers of a plan, and fates in a report */
#define TAMPERMAUVE_STEPS_LIMIT 128u   /* steps of a worker */
#define TAMPERMAUVE_REGISTER_COUNT 4u  /* registers of a worker: 0 to 3 */
#define TAMPERMAUVE_BARRIER_COUNT 8u   /* barriers: 0 to 7 */
#define TAMPERMAUVE_SIZE_LIMIT 8u      /* the greatest size of a barrier; the least is 1 */
#define TAMPERMAUVE_VALUE_LIMIT 65535u /* the greatest value of a set */
#define TAMPERMAUVE_ADDRESS_LIMIT 2046u /* the greatest address of a load or store, which take two bytes */
#define TAMPERMAUVE_LOCK_LIMIT 15u     /* the greatest number of a lock */
#define TAMPERMAUVE_CONDITION_LIMIT 7u /* the greatest number of a condition */
#define TAMPERMAUVE_SKIP_LIMIT 127u    /* the most steps that a skip passes over; the least is 1 */

/* ---- A record of the plan file: offsets of its parts, and the ops. */

#define TAMPERMAUVE_RECORD_MARK 0u     /* two bytes, 4D 50 */
#define TAMPERMAUVE_RECORD_WORKER 2u   /* in the plan record, n; in a sleep record, the sleeper */
#define TAMPERMAUVE_RECORD_OP 3u
#define TAMPERMAUVE_RECORD_REGISTER 4u /* in a barrier record, the barrier */
#define TAMPERMAUVE_RECORD_NUMBER 5u   /* two bytes; in a barrier record, the size */

#define TAMPERMAUVE_PLAN_MARK 0x504Du /* 4D 50 as tampermauve_word reads it */

/* the records that are no steps, in the order in which they stand before the steps */
#define TAMPERMAUVE_OP_PLAN_RECORD 0u
#define TAMPERMAUVE_OP_BARRIER_RECORD 1u
#define TAMPERMAUVE_OP_SLEEP_RECORD 2u  /* its worker begins asleep; register and number are 0 */

/* steps of a worker by itself: a register, and what the number is */
#define TAMPERMAUVE_OP_SET 16u          /* a value */
#define TAMPERMAUVE_OP_LOAD 17u         /* an address */
#define TAMPERMAUVE_OP_STORE 18u        /* an address */
#define TAMPERMAUVE_OP_ADD 19u          /* another register */
#define TAMPERMAUVE_OP_SUBTRACT 20u     /* another register */
#define TAMPERMAUVE_OP_SKIP_ZERO 21u    /* so many steps, if the register is zero */
#define TAMPERMAUVE_OP_SKIP_NONZERO 22u /* so many steps, if the register is not zero */

/* steps that synchronise: the register is 0 */
#define TAMPERMAUVE_OP_LOCK 32u      /* a lock that this worker does not hold; others may */
#define TAMPERMAUVE_OP_UNLOCK 33u    /* a lock that this worker holds */
#define TAMPERMAUVE_OP_WAIT 34u      /* a condition */
#define TAMPERMAUVE_OP_SIGNAL 35u    /* a condition, whose first waiter is woken */
#define TAMPERMAUVE_OP_BROADCAST 36u /* a condition, all of whose waiters are woken */
#define TAMPERMAUVE_OP_BARRIER 37u   /* a barrier */
#define TAMPERMAUVE_OP_EXIT 38u      /* the number is 0 */
#define TAMPERMAUVE_OP_START 39u     /* a worker below n */

/* ---- The report: offsets of its parts. Numbers of two bytes and of four are low byte first. */

#define TAMPERMAUVE_REPORT_END 0u     /* one byte, an end code */
#define TAMPERMAUVE_REPORT_WORKERS 1u /* one byte, n */
#define TAMPERMAUVE_REPORT_MOVES 2u   /* two bytes, the turns that made a move */
#define TAMPERMAUVE_REPORT_ROUNDS 4u  /* two bytes, the rounds completed */
#define TAMPERMAUVE_REPORT_RECORDS 6u /* two bytes, the records in the log */
#define TAMPERMAUVE_REPORT_FATES 8u   /* eight bytes, a fate code for each of workers 0 to 7 */
#define TAMPERMAUVE_REPORT_SUM 16u    /* four bytes, low byte first: the sum of shared memory's 1,024 words at even addresses */

#define TAMPERMAUVE_SUM_LIMIT 67107840u /* the greatest sum: 1,024 x 65,535 */

/* end codes */
#define TAMPERMAUVE_END_GOING 0u
#define TAMPERMAUVE_END_FINISHED 1u
#define TAMPERMAUVE_END_STUCK 2u

/* fate codes */
#define TAMPERMAUVE_FATE_GOING 0u
#define TAMPERMAUVE_FATE_EXITED 1u
#define TAMPERMAUVE_FATE_FAILED 2u
#define TAMPERMAUVE_FATE_ON_CONDITION 3u
#define TAMPERMAUVE_FATE_AT_BARRIER 4u
#define TAMPERMAUVE_FATE_ASLEEP 5u
#define TAMPERMAUVE_FATE_NO_WORKER 255u

/* ---- A record of the log: offsets of its parts. */

#define TAMPERMAUVE_ENTRY_MARK 0u    /* two bytes, 4D 4C */
#define TAMPERMAUVE_ENTRY_ROUND 2u   /* two bytes */
#define TAMPERMAUVE_ENTRY_WORKER 4u
#define TAMPERMAUVE_ENTRY_OP 5u
#define TAMPERMAUVE_ENTRY_NUMBER 6u
#define TAMPERMAUVE_ENTRY_OUTCOME 7u /* see the outcomes below */

#define TAMPERMAUVE_LOG_MARK 0x4C4Du /* 4D 4C as tampermauve_word reads it */

/* Outcomes. Lock and unlock: how many locks the worker holds after. Signal: the woken worker, or NONE. Broadcast: the number woken,
 * 0 if none. Barrier: QUEUED, or the size. Wait and exit: NONE. Start: STARTED, or AWAKE if the worker was not asleep. A failure:
 * FAILED, with the op as met. These fail: a lock of one that the worker holds, an unlock of one that it does not hold, a wait with
 * none held, a barrier or an exit with any held; what other workers hold plays no part. */
#define TAMPERMAUVE_OUTCOME_QUEUED 0u
#define TAMPERMAUVE_OUTCOME_STARTED 1u
#define TAMPERMAUVE_OUTCOME_AWAKE 253u
#define TAMPERMAUVE_OUTCOME_FAILED 254u
#define TAMPERMAUVE_OUTCOME_NONE 255u

/* The two-byte number at an offset of a report, or of a record of the file or of the log. */
static inline uint32_t tampermauve_word(const uint8_t *bytes, size_t at) {
    return (uint32_t)bytes[at] + 256u * (uint32_t)bytes[at + 1u];
}

/* The sum in a report. What a worker has stored and not committed is not in it. */
static inline uint32_t tampermauve_sum(const uint8_t *report) {
    return tampermauve_word(report, TAMPERMAUVE_REPORT_SUM) + 65536u * tampermauve_word(report, TAMPERMAUVE_REPORT_SUM + 2u);
}

/* ---- How many turns end a plan
 *
 * A cycle is one turn for each of the n workers, sleepers among them, in any order. So many whole cycles end any plan of n
 * workers that has so many steps in all, those of sleepers among them, and no plan needs more than TAMPERMAUVE_ENDING_TURNS
 * turns. Further turns change nothing. */
static inline size_t tampermauve_ending_cycles(size_t steps, size_t workers) { return 2u * (steps + workers); }

#define TAMPERMAUVE_ENDING_TURNS 16512u /* 2 x (8 x 128 + 8) cycles of 8 turns */

/* ---- The lengths of many files: writes that of one of them, the first being 0, into `lengths`, low byte first. */
static inline void tampermauve_put_length(uint8_t *lengths, size_t plan, uint32_t length) {
    uint8_t *at = lengths + TAMPERMAUVE_LENGTH_BYTES * plan;
    at[0] = (uint8_t)(length & 255u);
    at[1] = (uint8_t)(length >> 8 & 255u);
    at[2] = (uint8_t)(length >> 16 & 255u);
    at[3] = (uint8_t)(length >> 24);
}

/* ---- Calls */

/* Checks a plan file: 0 if it is accepted, else one of the refusals 1 to 10 and 14 with its index. Nothing is written.
 * `file` may have any length. */
uint32_t tampermauve_check(const uint8_t *file, size_t file_length);

/* Runs a plan file by a list of turns. It tests 11, 12, the file's 1 to 10 and 14, then 13 over all turns, before it writes.
 *
 *   memory  exactly TAMPERMAUVE_MEMORY_LENGTH bytes: in, the starting memory; out, the shared memory
 *   log     exactly TAMPERMAUVE_LOG_LENGTH bytes: out, its records and then zeros
 *   report  exactly TAMPERMAUVE_REPORT_LENGTH bytes: out, the report
 *   work    exactly TAMPERMAUVE_WORK_LENGTH bytes: out, all zero
 *
 * What log, report and work hold before the call does not matter. After a refusal all four are as they were.
 * A byte of memory that no load or store of the file covers, each of which covers its address and the next, is as it was, and
 * what it holds changes nothing else that the run leaves but the report's sum.
 * `turns` may be empty; each byte names a worker. A turn that names a sleeper passes.
 *
 * Each run begins with round 1, with every worker at its first step and every sleeper asleep, and cannot be resumed: what it
 * leaves in the buffers is no state to go on from. To go on, hand in the file and the starting memory again with the whole list
 * of turns, those of the earlier run first: the log then begins with the earlier run's records. */
uint32_t tampermauve_run(const uint8_t *file, size_t file_length, const uint8_t *turns, size_t turns_length, uint8_t *memory,
                         size_t memory_length, uint8_t *log, size_t log_length, uint8_t *report, size_t report_length,
                         uint8_t *work, size_t work_length);

/* Runs 1 to TAMPERMAUVE_PLANS_LIMIT plan files, one after the other and each to its end: as one call of tampermauve_run for each of
 * them, with the same `work` and with as many whole cycles of turns as end it. No turns are handed in.
 *
 * It tests 11, for `work` alone, and then 15, before it reads any file and writes any byte, and returns that number. Else it returns
 * 0, whatever becomes of the plans; `answers` tells that.
 *
 *   count     how many plans
 *   files     their files, back to back without gaps
 *   lengths   exactly count x TAMPERMAUVE_LENGTH_BYTES bytes: the bytes of each file (tampermauve_put_length). They add up to
 *             files_length, with no wrap
 *   memories  exactly count x TAMPERMAUVE_MEMORY_LENGTH bytes: in, each plan's starting memory; out, its shared memory
 *   logs      exactly count x TAMPERMAUVE_LOG_LENGTH bytes: out, for each plan its records and then zeros
 *   reports   exactly count x TAMPERMAUVE_REPORT_LENGTH bytes: out, each plan's report
 *   answers   exactly count bytes: out, for each plan 0, or the number of its refusal, 1 to 10 or 14, without the index, which
 *             tampermauve_check gives
 *   work      exactly TAMPERMAUVE_WORK_LENGTH bytes: out, all zero; as it was if every plan is refused
 *
 * What logs, reports, answers and work hold before the call does not matter. A refused plan leaves its own memory, log and report as
 * they were, and those behind it are run all the same. A length that no file may have, 0 among them, is its plan's refusal 1. */
uint32_t tampermauve_run_all(size_t count, const uint8_t *files, size_t files_length, const uint8_t *lengths, size_t lengths_length,
                             uint8_t *memories, size_t memories_length, uint8_t *logs, size_t logs_length, uint8_t *reports,
                             size_t reports_length, uint8_t *answers, size_t answers_length, uint8_t *work, size_t work_length);

#ifdef __cplusplus
}
#endif

#endif
