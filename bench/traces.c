#include "traces.h"

#include <stdbool.h>

enum { CS = 1, SK = 2, DI = 4, ORG = 8, PE = 16 };

enum kind { READ, WRITE, ERASE, WEN, WDS, ERAL, WRALL };

struct trace {
    struct chance chance;
    uint8_t *samples;
    size_t length;
    size_t used;
    uint8_t part;
    uint8_t idle; /* the levels of ORG and PE */
};

void chance_start(struct chance *c, uint64_t seed)
{
    c->state = (seed + 1) * 0x9E3779B97F4A7C15u;
    for (int i = 0; i < 8; i++)
        chance_next(c);
}

uint64_t chance_next(struct chance *c)
{
    c->state ^= c->state << 13;
    c->state ^= c->state >> 7;
    c->state ^= c->state << 17;
    return c->state;
}

uint32_t chance_below(struct chance *c, uint32_t limit)
{
    return (chance_next(c) >> 32) * limit >> 32;
}

static bool one_in(struct trace *t, uint32_t limit)
{
    return chance_below(&t->chance, limit) == 0;
}

static bool full(const struct trace *t)
{
    return t->used == t->length;
}

static void put(struct trace *t, uint8_t sample)
{
    if (!full(t))
        t->samples[t->used++] = sample;
}

static void put_times(struct trace *t, uint8_t level, size_t times)
{
    while (times-- > 0 && !full(t))
        put(t, t->idle | level);
}

static void begin(struct trace *t, uint8_t *samples, size_t length, const struct trace_setup *setup, uint64_t seed)
{
    chance_start(&t->chance, seed);
    t->samples = samples;
    t->length = length;
    t->used = 0;
    t->part = setup->part;
    t->idle = PE | (setup->org ? ORG : 0);
    put_times(t, 0, 2);
}

static uint32_t width_now(const struct trace *t)
{
    return t->part == 46 || (t->idle & ORG) ? 16 : 8;
}

static uint32_t address_bits_now(const struct trace *t)
{
    uint32_t bits = t->part == 46 ? 6 : t->part < 70 ? 8 : 10;
    return width_now(t) == 16 ? bits : bits + 1;
}

static void put_bit(struct trace *t, bool bit)
{
    put(t, t->idle | CS | (bit ? DI : 0));
    put(t, t->idle | CS | SK | (bit ? DI : 0));
}

static void put_bits(struct trace *t, uint32_t field, uint32_t count)
{
    while (count > 0) {
        count--;
        put_bit(t, field >> count & 1);
    }
}

/* Start bit, opcode and address field of an instruction, with any address. */
static uint32_t head_of(struct trace *t, enum kind kind)
{
    static const uint8_t opcodes[] = {2, 1, 3, 0, 0, 0, 0};
    static const uint8_t fields[] = {0, 0, 0, 3, 0, 2, 1};
    uint32_t bits = address_bits_now(t);
    uint32_t field = chance_below(&t->chance, 1u << bits);
    if (opcodes[kind] == 0)
        field = field >> 2 | (uint32_t)fields[kind] << (bits - 2);
    return (4u | opcodes[kind]) << bits | field;
}

/* words counts the words of a READ. */
static void put_frame(struct trace *t, enum kind kind, uint32_t words)
{
    uint32_t head = head_of(t, kind);
    put_times(t, CS, 1);
    put_bits(t, head, 3 + address_bits_now(t));
    if (kind == WRITE || kind == WRALL)
        put_bits(t, chance_below(&t->chance, 65536), width_now(t));
    else if (kind == READ)
        for (uint32_t i = 0; i < words * width_now(t) && !full(t); i++)
            put_bit(t, false);
    put_times(t, CS, 1);
    put_times(t, 0, 1);
}

void make_dense_frames(uint8_t *samples, size_t length, const struct trace_setup *setup, uint64_t seed)
{
    struct trace t;
    begin(&t, samples, length, setup, seed);
    put_frame(&t, WEN, 0);
    while (!full(&t)) {
        uint32_t choice = chance_below(&t.chance, 64);
        if (choice == 0) {
            put_frame(&t, WDS, 0);
            put_frame(&t, WEN, 0);
        } else if (choice == 1) {
            put_frame(&t, ERASE, 0);
        } else if (choice < 6) {
            put_frame(&t, READ, 1);
        } else {
            put_frame(&t, WRITE, 0);
        }
    }
}

void make_idle(uint8_t *samples, size_t length, const struct trace_setup *setup, uint64_t seed)
{
    struct trace t;
    begin(&t, samples, length, setup, seed);
    put_frame(&t, WEN, 0);
    while (!full(&t)) {
        uint32_t stretch = 500 + chance_below(&t.chance, 1500);
        if (one_in(&t, 2)) {
            put_times(&t, 0, stretch);
        } else {
            for (uint32_t i = 0; i < stretch; i += 4) {
                put_times(&t, 0, 2);
                put_times(&t, SK, 2);
            }
        }
        put_frame(&t, one_in(&t, 2) ? READ : WRITE, 1);
    }
}

void make_reading_runs(uint8_t *samples, size_t length, const struct trace_setup *setup, uint64_t seed)
{
    struct trace t;
    begin(&t, samples, length, setup, seed);
    while (!full(&t))
        put_frame(&t, READ, 50 + chance_below(&t.chance, 150));
}

void make_status_polling(uint8_t *samples, size_t length, const struct trace_setup *setup, uint64_t seed)
{
    struct trace t;
    begin(&t, samples, length, setup, seed);
    put_frame(&t, WEN, 0);
    while (!full(&t)) {
        put_frame(&t, WRITE, 0);
        put_times(&t, CS, (size_t)setup->write + 2);
        put_times(&t, 0, 1);
    }
}

void make_random_levels(uint8_t *samples, size_t length, const struct trace_setup *setup, uint64_t seed)
{
    struct trace t;
    begin(&t, samples, length, setup, seed);
    while (!full(&t))
        put(&t, chance_below(&t.chance, 32));
}

/* A bit that now and then comes with a fault. */
static void put_noisy_bit(struct trace *t, bool bit)
{
    uint8_t level = t->idle | CS | (bit ? DI : 0);
    switch (chance_below(&t->chance, 400)) {
    case 0: return;
    case 1: put_bit(t, bit); break;
    case 2: put(t, t->idle); break;
    case 3: put(t, t->idle | SK); break;
    case 4: put(t, level | SK); break;
    case 5: put(t, level ^ ORG); break;
    case 6: put(t, level ^ PE); break;
    case 7: put_times(t, CS | SK, 3); break;
    case 8: put(t, level ^ DI); break;
    }
    put(t, level);
    put(t, level | SK);
}

static void put_noisy_bits(struct trace *t, uint32_t field, uint32_t count)
{
    while (count > 0) {
        count--;
        put_noisy_bit(t, field >> count & 1);
    }
}

/* The clocks after a READ's address; now and then enough to come round to cell 0. */
static void put_run(struct trace *t)
{
    uint32_t clocks = chance_below(&t->chance, one_in(t, 8) ? 600 : 40);
    if (one_in(t, 200))
        clocks = 1100 + chance_below(&t->chance, 17000);
    while (clocks-- > 0 && !full(t))
        put_bit(t, one_in(t, 2));
}

static void put_noisy_frame(struct trace *t, enum kind kind)
{
    uint32_t head = head_of(t, kind);
    uint32_t missing = one_in(t, 12) ? chance_below(&t->chance, 6) : 0;
    uint32_t extra = one_in(t, 12) ? chance_below(&t->chance, 4) : 0;
    uint32_t bits = 3 + address_bits_now(t);
    put_times(t, CS | (one_in(t, 16) ? SK : 0), 1);
    while (one_in(t, 4))
        put_bit(t, false);
    put_noisy_bits(t, head >> missing, bits - missing);
    if (missing == 0 && (kind == WRITE || kind == WRALL))
        put_noisy_bits(t, chance_below(&t->chance, 65536), width_now(t) - (one_in(t, 20) ? 1 : 0));
    else if (missing == 0 && kind == READ)
        put_run(t);
    put_noisy_bits(t, chance_below(&t->chance, 16), extra);
    if (one_in(t, 6))
        put_times(t, CS, chance_below(&t->chance, 300));
    else
        put_times(t, CS, chance_below(&t->chance, 3));
    put_times(t, one_in(t, 8) ? SK : 0, 1);
}

void make_noisy_frames(uint8_t *samples, size_t length, const struct trace_setup *setup, uint64_t seed)
{
    struct trace t;
    begin(&t, samples, length, setup, seed);
    while (!full(&t)) {
        uint32_t choice = chance_below(&t.chance, 16);
        if (one_in(&t, 10))
            t.idle ^= ORG;
        if (one_in(&t, t.idle & PE ? 12 : 3))
            t.idle ^= PE;
        if (one_in(&t, 4))
            put_times(&t, 0, chance_below(&t.chance, setup->write + 4u));
        if (one_in(&t, 8)) {
            put_times(&t, CS, chance_below(&t.chance, setup->write + 4u));
            put_times(&t, one_in(&t, 2) ? CS : 0, 1);
        }
        if (choice < 5)
            put_noisy_frame(&t, WRITE);
        else if (choice < 7)
            put_noisy_frame(&t, WEN);
        else
            put_noisy_frame(&t, choice % 7);
    }
}
