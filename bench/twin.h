/* The plan engine as written by hand in C: the peer of the verified one.
 * All calls have the parameters and answers of the library's own. */
#ifndef TWIN_H
#define TWIN_H

#include <stddef.h>
#include <stdint.h>

/* Checks a plan file: 0, or refusal + 256 * record index. */
uint32_t twin_check(const uint8_t *file, size_t file_len);

/* Plays a plan over a turn list: 0, or refusal + 256 * record index. */
uint32_t twin_run(const uint8_t *file, size_t file_len,
                  const uint8_t *turns, size_t turns_len,
                  uint8_t *memory, size_t memory_len,
                  uint8_t *log, size_t log_len,
                  uint8_t *report, size_t report_len,
                  uint8_t *work, size_t work_len);

/* Plays many plans to their ends: 0, or refusal. */
uint32_t twin_run_all(size_t count,
                      const uint8_t *files, size_t files_len,
                      const uint8_t *lengths, size_t lengths_len,
                      uint8_t *memories, size_t memories_len,
                      uint8_t *logs, size_t logs_len,
                      uint8_t *reports, size_t reports_len,
                      uint8_t *answers, size_t answers_len,
                      uint8_t *work, size_t work_len);

#endif
