/* Makers of traces: each fills all samples, and the same seed gives the same trace. */
#ifndef TRACES_H
#define TRACES_H

#include <stddef.h>
#include <stdint.h>

/* A small random generator (xorshift64). */
struct chance {
    uint64_t state;
};

void chance_start(struct chance *c, uint64_t seed);
uint64_t chance_next(struct chance *c);
uint32_t chance_below(struct chance *c, uint32_t limit);

/* What a trace is made for. org: 0 is low, any other number high. */
struct trace_setup {
    uint8_t part;
    uint8_t edition;
    uint8_t org;
    uint16_t write;
    uint16_t eral;
    uint16_t wrall;
};

typedef void trace_maker(uint8_t *samples, size_t length, const struct trace_setup *setup, uint64_t seed);

/* Valid frames one after the other; meant for cycles of length 0. */
trace_maker make_dense_frames;

/* CS low for long, with a rare frame. */
trace_maker make_idle;

/* READ frames over many words. */
trace_maker make_reading_runs;

/* WRITE frames, each followed by CS high until its cycle is over. */
trace_maker make_status_polling;

/* Each sample is any of 0 to 31. */
trace_maker make_random_levels;

/* Frames of all kinds with faults. */
trace_maker make_noisy_frames;

#endif
