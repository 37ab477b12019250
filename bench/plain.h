/* A plain C machine, reader and frame writer, written from docs/ alone, to compare with.
 *
 * Each function takes and answers what the function of kippercrag.h with the same ending does.
 */
#ifndef PLAIN_H
#define PLAIN_H

#include "kippercrag.h"

kippercrag_answer plain_check_settings(uint8_t part, uint8_t edition, uint16_t write, uint16_t eral, uint16_t wrall);

kippercrag_answer plain_run_trace(uint8_t part, uint8_t edition, uint16_t write, uint16_t eral, uint16_t wrall,
                                  uint8_t *memory, size_t memory_length, const uint8_t *samples, size_t samples_length,
                                  uint8_t *levels, size_t levels_length);

kippercrag_answer plain_list_trace(const uint8_t *file, size_t file_length, uint8_t *text, size_t text_length);

kippercrag_answer plain_count_entries(uint8_t part, uint8_t edition, uint16_t write, uint16_t eral, uint16_t wrall,
                                      const uint8_t *samples, size_t samples_length, size_t room);

kippercrag_answer plain_write_frame(uint8_t part, uint8_t org, uint8_t pe, uint8_t kind, uint16_t address,
                                    uint16_t value, uint8_t *samples, size_t samples_length);

#endif
