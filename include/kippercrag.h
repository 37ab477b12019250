/* Kippercrag for C: trace files, models and frames of 93C Microwire EEPROMs.
 *
 * Numbers and bytes only. A buffer is a pointer, not null, and its length in bytes; buffers that are written must
 * not overlap with other buffers of the call. No function reads or writes outside the buffers it is given.
 */
#ifndef KIPPERCRAG_H
#define KIPPERCRAG_H

#include <stddef.h>
#include <stdint.h>

#ifdef __cplusplus
extern "C" {
#endif

/* refusal is 0, or the number of a refusal, then with its place (docs/REFUSALS.md). Where nothing else is said, the
 * length of a refused call is 0. */
typedef struct {
    uint64_t refusal;
    uint64_t place;
    uint64_t length;
} kippercrag_answer;

/* Do the settings name a chip? 6 if not; length is the number of its bytes. */
kippercrag_answer kippercrag_check_settings(uint8_t part, uint8_t edition, uint16_t write, uint16_t eral,
                                            uint16_t wrall);

/* Runs a trace on a chip at power-up over memory, which keeps its bytes. levels gets a level of DO (0, 1, 2) for
 * each sample. Refusals: 6, 7, 4, 5, in this order; each leaves memory and levels as they were. length is the number
 * of samples. */
kippercrag_answer kippercrag_run_trace(uint8_t part, uint8_t edition, uint16_t write, uint16_t eral, uint16_t wrall,
                                       uint8_t *memory, size_t memory_length, const uint8_t *samples,
                                       size_t samples_length, uint8_t *levels, size_t levels_length);

/* The listing of a trace file. length is the length of the text, and refusal and place are those of its last line.
 * If the text does not fit the buffer, it is refused with 8 at 0 and the buffer is as it was; length is then the
 * length that it would need, or 0 where the heap had no memory. */
kippercrag_answer kippercrag_list_trace(const uint8_t *file, size_t file_length, uint8_t *text, size_t text_length);

/* How many entries the reader makes of a trace, with room for so many. Refusals: 4, 6, 8, in this order. length is
 * the number of entries that fitted. The places are taken from the heap before anything is judged; where it has no
 * memory for them the call is refused with 8 at 0. */
kippercrag_answer kippercrag_count_entries(uint8_t part, uint8_t edition, uint16_t write, uint16_t eral, uint16_t wrall,
                                           const uint8_t *samples, size_t samples_length, size_t room);

/* The frame of an instruction, at the front of samples. org and pe: 0 is low, any other number high; every sample
 * carries both. kind: 0 READ, 1 WRITE, 2 ERASE, 3 WEN, 4 WDS, 5 ERAL, 6 WRALL. address counts for READ, WRITE and
 * ERASE; value is the word of WRITE and WRALL and the number of words of READ; where they do not count they are
 * ignored. Refusals: 6 (also for another kind), 1, 2, 3, 8, in this order; each leaves samples as they were. length
 * is that of the frame. */
kippercrag_answer kippercrag_write_frame(uint8_t part, uint8_t org, uint8_t pe, uint8_t kind, uint16_t address,
                                         uint16_t value, uint8_t *samples, size_t samples_length);

#ifdef __cplusplus
}
#endif

#endif
