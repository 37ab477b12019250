#include "plain.h"

#include <stdbool.h>
#include <stdlib.h>
#include <string.h>

enum { CS = 1, SK = 2, DI = 4, ORG = 8, PE = 16 };

enum { LONGEST_FILE = 65536, MOST_ENTRIES = 1024, LONGEST_LINE = 64 };

enum refusal {
    DONE = 0,
    BAD_ADDRESS = 1,
    BAD_VALUE = 2,
    BAD_WORD_COUNT = 3,
    HIGH_SAMPLE = 4,
    BAD_LENGTH = 5,
    BAD_SETTINGS = 6,
    BAD_MEMORY = 7,
    NO_ROOM = 8,
    BAD_FILE = 9
};

enum kind { READ, WRITE, ERASE, WEN, WDS, ERAL, WRALL, BAD };

enum verdict { CARRIED_OUT, SHUT, PROTECTED, WRONG_COUNT };

enum phase { WAITING, TAKING, READING, SPOILED, OVER };

struct part {
    uint8_t number;
    bool has_clock_edition;
    uint16_t bytes;
    uint8_t address_bits_16;
    uint8_t address_bits_8;
};

static const struct part PARTS[] = {
    {46, false, 128, 6, 0}, {56, false, 256, 8, 9},   {66, false, 512, 8, 9},
    {76, true, 1024, 10, 11}, {86, true, 2048, 10, 11},
};

struct settings {
    uint8_t part;
    uint8_t edition;
    uint16_t write;
    uint16_t eral;
    uint16_t wrall;
};

struct entry {
    enum kind kind;
    uint16_t address;
    uint16_t data;
    uint8_t width;
    enum verdict verdict;
    uint32_t first;
    uint32_t last;
};

struct machine {
    const struct part *part;
    bool clock_edition;
    uint16_t write;
    uint16_t eral;
    uint16_t wrall;
    uint8_t *memory; /* the reader has none */
    bool open;
    bool status;
    bool cs;
    bool sk;
    uint16_t left;
    enum phase phase;
    uint8_t level;
    uint8_t width;
    uint8_t address_bits;
    uint8_t count;  /* bits taken since the start bit */
    uint8_t length; /* of the instruction; 0 until its bits tell */
    uint32_t bits;
    uint16_t cell;
    uint16_t word;
    uint8_t bits_left; /* of the word being read */
    uint32_t first;
    struct entry entry; /* what was decided last */
};

static kippercrag_answer answer(enum refusal refusal, size_t place, size_t length)
{
    kippercrag_answer a = {refusal, place, length};
    return a;
}

static const struct part *find_part(uint8_t number)
{
    for (size_t i = 0; i < sizeof PARTS / sizeof PARTS[0]; i++)
        if (PARTS[i].number == number)
            return &PARTS[i];
    return NULL;
}

/* The part, or NULL if the settings name no chip. */
static const struct part *check(const struct settings *s)
{
    const struct part *part = find_part(s->part);
    if (part == NULL || s->edition > 1 || (s->edition == 1 && !part->has_clock_edition))
        return NULL;
    return part;
}

static uint8_t width_of(const struct part *part, bool org)
{
    return org || part->address_bits_8 == 0 ? 16 : 8;
}

static uint8_t address_bits_of(const struct part *part, uint8_t width)
{
    return width == 16 ? part->address_bits_16 : part->address_bits_8;
}

static uint16_t cells_of(const struct part *part, uint8_t width)
{
    return width == 16 ? part->bytes / 2 : part->bytes;
}

static size_t first_high(const uint8_t *samples, size_t length)
{
    size_t i = 0;
    while (i < length && samples[i] <= 31)
        i++;
    return i;
}

static void power_up(struct machine *m, const struct part *part, const struct settings *s, uint8_t *memory)
{
    memset(m, 0, sizeof *m);
    m->part = part;
    m->clock_edition = s->edition == 1;
    m->write = s->write;
    m->eral = s->eral;
    m->wrall = s->wrall;
    m->memory = memory;
    m->phase = WAITING;
    m->level = 2;
}

static void put_word(struct machine *m, uint16_t cell, uint16_t word)
{
    if (m->width == 16) {
        m->memory[2 * cell] = word >> 8;
        m->memory[2 * cell + 1] = word & 255;
    } else {
        m->memory[cell] = word & 255;
    }
}

static void get_word(struct machine *m)
{
    if (m->memory == NULL)
        return;
    if (m->width == 16)
        m->word = m->memory[2 * m->cell] << 8 | m->memory[2 * m->cell + 1];
    else
        m->word = m->memory[m->cell];
}

static void put_everywhere(struct machine *m, uint16_t word)
{
    uint16_t cells = cells_of(m->part, m->width);
    for (uint16_t cell = 0; cell < cells; cell++)
        put_word(m, cell, word);
}

static enum kind kind_of(const struct machine *m)
{
    switch (m->bits >> (m->count - 2)) {
    case 2: return READ;
    case 1: return WRITE;
    case 3: return ERASE;
    }
    switch (m->bits >> (m->count - 4) & 3) {
    case 3: return WEN;
    case 0: return WDS;
    case 2: return ERAL;
    }
    return WRALL;
}

/* The instruction's length, once its bits tell it. */
static void find_length(struct machine *m)
{
    if (m->count == 2 && m->bits != 0)
        m->length = 2 + m->address_bits + (m->bits == 1 ? m->width : 0);
    else if (m->count == 4 && m->bits < 4)
        m->length = 2 + m->address_bits + (m->bits == 1 ? m->width : 0);
}

static void decide(struct machine *m, enum kind kind, enum verdict verdict, uint32_t place)
{
    m->entry.kind = kind;
    m->entry.width = m->width;
    m->entry.verdict = verdict;
    m->entry.first = m->first;
    m->entry.last = place;
}

static void change(struct machine *m)
{
    uint16_t ones = m->width == 16 ? 65535 : 255;
    switch (m->entry.kind) {
    case WRITE:
        if (m->memory != NULL)
            put_word(m, m->entry.address, m->entry.data);
        m->left = m->write;
        break;
    case ERASE:
        if (m->memory != NULL)
            put_word(m, m->entry.address, ones);
        m->left = m->write;
        break;
    case ERAL:
        if (m->memory != NULL)
            put_everywhere(m, ones);
        m->left = m->eral;
        break;
    default:
        if (m->memory != NULL)
            put_everywhere(m, m->entry.data);
        m->left = m->wrall;
        break;
    }
    if (m->clock_edition)
        m->status = true;
}

/* Address and data of the instruction whose bits are all there. */
static void find_fields(struct machine *m)
{
    uint32_t field = m->bits;
    if (m->length > 2 + m->address_bits) {
        m->entry.data = m->bits & ((1u << m->width) - 1);
        field >>= m->width;
    }
    field &= (1u << m->address_bits) - 1;
    m->entry.address = field & (cells_of(m->part, m->width) - 1u); /* cells are a power of two */
}

static void carry_out(struct machine *m, uint8_t sample, uint32_t place)
{
    enum kind kind = kind_of(m);
    enum verdict verdict = CARRIED_OUT;
    find_fields(m);
    if (kind == WEN) {
        m->open = true;
    } else if (kind == WDS) {
        m->open = false;
    } else if (!m->open) {
        verdict = SHUT;
    } else if (m->clock_edition && !(sample & PE)) {
        verdict = PROTECTED;
    }
    decide(m, kind, verdict, place);
    if (kind != WEN && kind != WDS && verdict == CARRIED_OUT)
        change(m);
}

static void start(struct machine *m, uint8_t sample, uint32_t place)
{
    m->width = width_of(m->part, sample & ORG);
    m->address_bits = address_bits_of(m->part, m->width);
    m->bits = 0;
    m->count = 0;
    m->length = 0;
    m->first = place;
    m->phase = TAKING;
}

/* Each of the functions below answers whether the sample decided something. */
static bool take_bit(struct machine *m, uint8_t sample, uint32_t place)
{
    if (m->length != 0 && m->count == m->length) {
        m->phase = SPOILED;
        return false;
    }
    m->bits = m->bits << 1 | (sample & DI ? 1 : 0);
    m->count++;
    if (m->length == 0)
        find_length(m);
    if (m->count != m->length)
        return false;
    if (kind_of(m) == READ) {
        find_fields(m);
        decide(m, READ, CARRIED_OUT, place);
        m->cell = m->entry.address;
        m->bits_left = m->width;
        get_word(m);
        m->level = 0;
        m->phase = READING;
        return true;
    }
    if (!m->clock_edition)
        return false;
    m->phase = OVER;
    carry_out(m, sample, place);
    return true;
}

static void put_bit(struct machine *m)
{
    m->bits_left--;
    m->level = m->word >> m->bits_left & 1;
    if (m->bits_left == 0) {
        m->bits_left = m->width;
        m->cell++;
        if (m->cell == cells_of(m->part, m->width))
            m->cell = 0;
        get_word(m);
    }
}

static bool take_clock(struct machine *m, uint8_t sample, uint32_t place)
{
    switch (m->phase) {
    case WAITING:
        if (sample & DI)
            start(m, sample, place);
        return false;
    case TAKING:
        return take_bit(m, sample, place);
    case READING:
        put_bit(m);
        return false;
    case SPOILED:
        return false;
    case OVER:
        if (sample & DI)
            m->status = false;
        return false;
    }
    return false;
}

static bool end_frame(struct machine *m, uint8_t sample, uint32_t place)
{
    if (m->phase != TAKING && m->phase != SPOILED)
        return false;
    if (m->phase == TAKING && !m->clock_edition && m->length != 0 && m->count == m->length)
        carry_out(m, sample, place);
    else
        decide(m, BAD, WRONG_COUNT, place);
    return true;
}

static bool step(struct machine *m, uint8_t sample, uint32_t place)
{
    bool cs = sample & CS;
    bool sk = sample & SK;
    bool decided = false;
    if (m->left > 0)
        m->left--;
    if (!cs) {
        if (m->cs)
            decided = end_frame(m, sample, place);
        m->phase = WAITING;
        m->status = false;
        m->level = 2;
    } else {
        if (!m->cs && m->left > 0) {
            m->status = true;
            m->phase = OVER;
        }
        if (m->cs && sk && !m->sk && m->left == 0)
            decided = take_clock(m, sample, place);
        if (m->phase != READING)
            m->level = !m->status ? 2 : m->left > 0 ? 0 : 1;
    }
    m->cs = cs;
    m->sk = sk;
    return decided;
}

kippercrag_answer plain_check_settings(uint8_t part, uint8_t edition, uint16_t write, uint16_t eral, uint16_t wrall)
{
    struct settings s = {part, edition, write, eral, wrall};
    const struct part *found = check(&s);
    if (found == NULL)
        return answer(BAD_SETTINGS, 0, 0);
    return answer(DONE, 0, found->bytes);
}

kippercrag_answer plain_run_trace(uint8_t part, uint8_t edition, uint16_t write, uint16_t eral, uint16_t wrall,
                                  uint8_t *memory, size_t memory_length, const uint8_t *samples, size_t samples_length,
                                  uint8_t *levels, size_t levels_length)
{
    struct settings s = {part, edition, write, eral, wrall};
    struct machine m;
    const struct part *found = check(&s);
    size_t high;
    if (found == NULL)
        return answer(BAD_SETTINGS, 0, 0);
    if (memory_length != found->bytes)
        return answer(BAD_MEMORY, 0, 0);
    high = first_high(samples, samples_length);
    if (high < samples_length)
        return answer(HIGH_SAMPLE, high, 0);
    if (levels_length != samples_length)
        return answer(BAD_LENGTH, 0, 0);
    power_up(&m, found, &s, memory);
    for (size_t i = 0; i < samples_length; i++) {
        step(&m, samples[i], i);
        levels[i] = m.level;
    }
    return answer(DONE, 0, samples_length);
}

/* Lists the entries of a trace. The answer's length is the number of those that fitted. */
static kippercrag_answer read_trace(const struct settings *s, const uint8_t *samples, size_t length,
                                    struct entry *entries, size_t room)
{
    const struct part *part = check(s);
    struct machine m;
    size_t made = 0;
    size_t high = first_high(samples, length);
    if (high < length)
        return answer(HIGH_SAMPLE, high, 0);
    if (part == NULL)
        return answer(BAD_SETTINGS, 0, 0);
    power_up(&m, part, s, NULL);
    for (size_t i = 0; i < length; i++) {
        if (step(&m, samples[i], i)) {
            if (made == room)
                return answer(NO_ROOM, i, made);
            entries[made] = m.entry;
            made++;
        }
    }
    return answer(DONE, 0, made);
}

kippercrag_answer plain_count_entries(uint8_t part, uint8_t edition, uint16_t write, uint16_t eral, uint16_t wrall,
                                      const uint8_t *samples, size_t samples_length, size_t room)
{
    struct settings s = {part, edition, write, eral, wrall};
    kippercrag_answer a;
    struct entry *entries;
    if (room > samples_length)
        room = samples_length; /* a sample makes at most one entry */
    entries = malloc((room + 1) * sizeof *entries);
    if (entries == NULL)
        return answer(NO_ROOM, 0, 0);
    a = read_trace(&s, samples, samples_length, entries, room);
    free(entries);
    return a;
}

static uint16_t two_bytes(const uint8_t *p)
{
    return p[0] << 8 | p[1];
}

/* Joins the samples of a trace file. The answer's length is their number. */
static kippercrag_answer take_file(const uint8_t *file, size_t length, struct settings *s, uint8_t *samples)
{
    size_t at = 10;
    size_t joined = 0;
    if (length > LONGEST_FILE)
        return answer(BAD_FILE, LONGEST_FILE, 0);
    if (length < 10 || file[0] != 0x93 || file[1] != 1)
        return answer(BAD_FILE, 0, 0);
    s->part = file[2];
    s->edition = file[3];
    s->write = two_bytes(file + 4);
    s->eral = two_bytes(file + 6);
    s->wrall = two_bytes(file + 8);
    do {
        size_t count;
        if (length - at < 4 || file[at] != 0x93 || file[at + 1] != 2)
            return answer(BAD_FILE, at, 0);
        count = two_bytes(file + at + 2);
        if (count > length - at - 4)
            return answer(BAD_FILE, at, 0);
        memcpy(samples + joined, file + at + 4, count);
        joined += count;
        at += 4 + count;
    } while (at < length);
    return answer(DONE, 0, joined);
}

static char *put_text(char *p, const char *text)
{
    while (*text != 0)
        *p++ = *text++;
    return p;
}

static char *put_number(char *p, uint64_t number)
{
    char digits[20];
    size_t n = 0;
    do {
        digits[n++] = '0' + number % 10;
        number /= 10;
    } while (number != 0);
    while (n > 0)
        *p++ = digits[--n];
    return p;
}

static char *put_entry(char *p, const struct entry *e)
{
    static const char *const names[] = {"READ ", "WRITE ", "ERASE ", "WEN ", "WDS ", "ERAL ", "WRALL ", "BAD "};
    p = put_text(p, names[e->kind]);
    if (e->kind == READ || e->kind == WRITE || e->kind == ERASE)
        p = put_number(p, e->address);
    else
        *p++ = '-';
    *p++ = ' ';
    if (e->kind == WRITE || e->kind == WRALL)
        p = put_number(p, e->data);
    else
        *p++ = '-';
    *p++ = ' ';
    p = put_number(p, e->width);
    *p++ = ' ';
    p = put_number(p, e->first);
    *p++ = ' ';
    p = put_number(p, e->last);
    *p++ = ' ';
    p = put_number(p, e->verdict);
    *p++ = '\n';
    return p;
}

static char *put_last_line(char *p, kippercrag_answer a)
{
    if (a.refusal == DONE) {
        p = put_text(p, "end ");
        p = put_number(p, a.length);
    } else {
        p = put_text(p, "refused ");
        p = put_number(p, a.refusal);
        p = put_text(p, " at ");
        p = put_number(p, a.place);
    }
    *p++ = '\n';
    return p;
}

struct listing {
    uint8_t samples[LONGEST_FILE];
    struct entry entries[MOST_ENTRIES];
    char text[(MOST_ENTRIES + 2) * LONGEST_LINE];
};

kippercrag_answer plain_list_trace(const uint8_t *file, size_t file_length, uint8_t *text, size_t text_length)
{
    struct listing *work = malloc(sizeof *work);
    struct settings s;
    kippercrag_answer a;
    size_t length;
    char *p;
    if (work == NULL)
        return answer(NO_ROOM, 0, 0);
    a = take_file(file, file_length, &s, work->samples);
    if (a.refusal == DONE)
        a = read_trace(&s, work->samples, a.length, work->entries, MOST_ENTRIES);
    p = put_text(work->text, "kind address data width first last verdict\n");
    for (size_t i = 0; i < a.length; i++)
        p = put_entry(p, &work->entries[i]);
    p = put_last_line(p, a);
    length = p - work->text;
    if (length > text_length) {
        a.refusal = NO_ROOM;
        a.place = 0;
    } else {
        memcpy(text, work->text, length);
    }
    free(work);
    a.length = length;
    return a;
}

struct instruction {
    bool has_address;
    bool has_data;
    uint8_t opcode;
    uint8_t field; /* the address field's first two bits, if it holds no address */
};

static const struct instruction INSTRUCTIONS[] = {
    [READ] = {true, false, 2, 0}, [WRITE] = {true, true, 1, 0},  [ERASE] = {true, false, 3, 0},
    [WEN] = {false, false, 0, 3}, [WDS] = {false, false, 0, 0},  [ERAL] = {false, false, 0, 2},
    [WRALL] = {false, true, 0, 1},
};

static uint8_t *put_bits(uint8_t *p, uint8_t idle, uint16_t field, uint8_t count)
{
    while (count > 0) {
        uint8_t level;
        count--;
        level = idle | CS | (field >> count & 1 ? DI : 0);
        *p++ = level;
        *p++ = level | SK;
    }
    return p;
}

static enum refusal judge_frame(const struct part *part, uint8_t width, uint8_t kind, uint16_t address, uint16_t value)
{
    uint16_t cells = cells_of(part, width);
    if (INSTRUCTIONS[kind].has_address && address >= cells)
        return BAD_ADDRESS;
    if (INSTRUCTIONS[kind].has_data && width == 8 && value > 255)
        return BAD_VALUE;
    if (kind == READ && (value == 0 || value > cells))
        return BAD_WORD_COUNT;
    return DONE;
}

static void put_frame(uint8_t *p, const struct instruction *i, uint8_t idle, uint8_t width, uint8_t address_bits,
                      uint16_t address, uint16_t value)
{
    uint16_t field = i->has_address ? address : i->field << (address_bits - 2);
    *p++ = idle | CS;
    p = put_bits(p, idle, 1, 1);
    p = put_bits(p, idle, i->opcode, 2);
    p = put_bits(p, idle, field, address_bits);
    if (i->has_data)
        p = put_bits(p, idle, value, width);
    else if (i->opcode == 2)
        for (uint16_t word = 0; word < value; word++)
            p = put_bits(p, idle, 0, width);
    *p++ = idle | CS;
    *p = idle;
}

kippercrag_answer plain_write_frame(uint8_t part, uint8_t org, uint8_t pe, uint8_t kind, uint16_t address,
                                    uint16_t value, uint8_t *samples, size_t samples_length)
{
    const struct part *found = find_part(part);
    uint8_t idle = (org ? ORG : 0) | (pe ? PE : 0);
    enum refusal refusal;
    uint8_t width, address_bits;
    size_t bits;
    if (found == NULL || kind > WRALL)
        return answer(BAD_SETTINGS, 0, 0);
    width = width_of(found, org);
    address_bits = address_bits_of(found, width);
    refusal = judge_frame(found, width, kind, address, value);
    if (refusal != DONE)
        return answer(refusal, 0, 0);
    bits = 3 + address_bits;
    if (INSTRUCTIONS[kind].has_data)
        bits += width;
    else if (kind == READ)
        bits += (size_t)value * width;
    if (2 * bits + 3 > samples_length)
        return answer(NO_ROOM, 0, 0);
    put_frame(samples, &INSTRUCTIONS[kind], idle, width, address_bits, address, value);
    return answer(DONE, 0, 2 * bits + 3);
}
