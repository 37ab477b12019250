/* Compares Kippercrag with the plain C machine: levels of DO, bytes, listings, frames and refusals. */
#include "kippercrag.h"
#include "plain.h"
#include "traces.h"

#include <stdio.h>
#include <stdlib.h>
#include <string.h>

enum { MOST_SAMPLES = 65400, MOST_FILE = 66000, MOST_TEXT = 60000, MOST_FRAME = 40000, MOST_BYTES = 2100, GUARD = 16 };

struct named_maker {
    const char *name;
    trace_maker *make;
};

static const struct named_maker MAKERS[] = {
    {"dense frames", make_dense_frames},     {"idle", make_idle},
    {"reading runs", make_reading_runs},     {"status polling", make_status_polling},
    {"random levels", make_random_levels},   {"noisy frames", make_noisy_frames},
};

static struct chance chance;
static const char *subject;
static struct trace_setup setup;
static uint64_t seed;
static uint64_t samples_compared, listings_compared, frames_compared, refusals_compared;

static uint8_t samples[MOST_SAMPLES];
static uint8_t file[MOST_FILE];
static uint8_t our_levels[MOST_SAMPLES + GUARD], plain_levels[MOST_SAMPLES + GUARD];
static uint8_t our_bytes[MOST_BYTES], plain_bytes[MOST_BYTES];
static uint8_t our_text[MOST_TEXT], plain_text[MOST_TEXT];
static uint8_t our_frame[MOST_FRAME], plain_frame[MOST_FRAME];

static _Noreturn void differ(const char *what, size_t place)
{
    printf("%s: %s differ at %zu (part %d, edition %d, org %d, cycles %d %d %d, seed %llu)\n", subject, what, place,
           setup.part, setup.edition, setup.org, setup.write, setup.eral, setup.wrall, (unsigned long long)seed);
    exit(1);
}

static void same_answers(kippercrag_answer ours, kippercrag_answer plain)
{
    if (ours.refusal != plain.refusal || ours.place != plain.place || ours.length != plain.length) {
        printf("ours: refusal %llu at %llu, length %llu; plain: refusal %llu at %llu, length %llu\n",
               (unsigned long long)ours.refusal, (unsigned long long)ours.place, (unsigned long long)ours.length,
               (unsigned long long)plain.refusal, (unsigned long long)plain.place, (unsigned long long)plain.length);
        differ("answers", plain.place);
    }
    if (plain.refusal != 0)
        refusals_compared++;
}

static void same_bytes(const char *what, const uint8_t *ours, const uint8_t *plain, size_t length)
{
    if (memcmp(ours, plain, length) == 0)
        return;
    for (size_t i = 0; i < length; i++)
        if (ours[i] != plain[i])
            differ(what, i);
}

static void fill_alike(uint8_t *ours, uint8_t *plain, size_t length)
{
    for (size_t i = 0; i < length; i++)
        ours[i] = chance_next(&chance) >> 40;
    memcpy(plain, ours, length);
}

static void compare_run(size_t bytes, size_t length, size_t levels)
{
    fill_alike(our_bytes, plain_bytes, MOST_BYTES);
    fill_alike(our_levels, plain_levels, levels + GUARD);
    same_answers(kippercrag_run_trace(setup.part, setup.edition, setup.write, setup.eral, setup.wrall, our_bytes, bytes,
                                      samples, length, our_levels, levels),
                 plain_run_trace(setup.part, setup.edition, setup.write, setup.eral, setup.wrall, plain_bytes, bytes,
                                 samples, length, plain_levels, levels));
    same_bytes("levels", our_levels, plain_levels, levels + GUARD);
    same_bytes("bytes", our_bytes, plain_bytes, MOST_BYTES);
}

/* Rooms that the heap cannot hold are left out: the plain machine takes no more places than it needs. */
static size_t compare_count(size_t length, size_t room)
{
    kippercrag_answer plain = plain_count_entries(setup.part, setup.edition, setup.write, setup.eral, setup.wrall,
                                                  samples, length, room);
    same_answers(kippercrag_count_entries(setup.part, setup.edition, setup.write, setup.eral, setup.wrall, samples,
                                          length, room),
                 plain);
    return plain.length;
}

static size_t compare_listing(size_t length, size_t text_length)
{
    kippercrag_answer plain;
    fill_alike(our_text, plain_text, MOST_TEXT);
    plain = plain_list_trace(file, length, plain_text, text_length);
    same_answers(kippercrag_list_trace(file, length, our_text, text_length), plain);
    same_bytes("listings", our_text, plain_text, MOST_TEXT);
    listings_compared++;
    return plain.length;
}

static size_t put_two(size_t at, uint32_t number)
{
    file[at] = number >> 8 & 255;
    file[at + 1] = number & 255;
    return at + 2;
}

/* Puts settings and samples into a file, cut into records anywhere. */
static size_t make_file(size_t length)
{
    size_t at = 0, done = 0;
    at = put_two(at, 0x9301);
    file[at++] = setup.part;
    file[at++] = setup.edition;
    at = put_two(at, setup.write);
    at = put_two(at, setup.eral);
    at = put_two(at, setup.wrall);
    do {
        size_t count = length - done;
        if (at + 4000 < 65536 - count && chance_below(&chance, 3) != 0)
            count = chance_below(&chance, count + 1);
        at = put_two(at, 0x9302);
        at = put_two(at, count);
        memcpy(file + at, samples + done, count);
        at += count;
        done += count;
    } while (done < length);
    return at;
}

static void compare_trace(const struct named_maker *maker, size_t length)
{
    size_t bytes = plain_check_settings(setup.part, setup.edition, 0, 0, 0).length;
    size_t entries, text;
    subject = maker->name;
    seed++;
    maker->make(samples, length, &setup, seed);
    compare_run(bytes, length, length);
    entries = compare_count(length, length);
    compare_count(length, entries);
    compare_count(length, length + 1 + chance_below(&chance, 5000));
    if (entries > 0)
        compare_count(length, chance_below(&chance, entries));
    text = compare_listing(make_file(length), MOST_TEXT - GUARD);
    if (chance_below(&chance, 4) == 0) {
        compare_listing(make_file(length), text);
        compare_listing(make_file(length), text - 1);
        compare_listing(make_file(length), chance_below(&chance, text));
    }
    samples_compared += length;
}

static uint16_t any_cycle(void)
{
    static const uint32_t limits[] = {1, 1, 4, 40, 700};
    return chance_below(&chance, limits[chance_below(&chance, 5)]);
}

static size_t any_length(void)
{
    static const uint32_t limits[] = {3, 100, 2000, 9000};
    return chance_below(&chance, limits[chance_below(&chance, 4)]);
}

/* Cycles that suit the maker are tried too, so that the chip is not always found busy. */
static void compare_traces_of_chip(void)
{
    for (size_t m = 0; m < sizeof MAKERS / sizeof MAKERS[0]; m++) {
        for (size_t round = 0; round < 24; round++) {
            setup.write = any_cycle();
            setup.eral = any_cycle();
            setup.wrall = any_cycle();
            compare_trace(&MAKERS[m], round < 3 ? round : any_length());
        }
        setup.write = setup.eral = setup.wrall = 0;
        compare_trace(&MAKERS[m], 6000);
        setup.write = 4000;
        compare_trace(&MAKERS[m], 20000);
        compare_trace(&MAKERS[m], MOST_SAMPLES);
    }
    setup.write = 0;
    compare_trace(&MAKERS[0], MOST_SAMPLES);
    compare_trace(&MAKERS[5], MOST_SAMPLES);
}

static void compare_refused_runs(void)
{
    size_t bytes = plain_check_settings(setup.part, setup.edition, 0, 0, 0).length;
    static const size_t sizes[] = {0, 1, 127, 128, 129, 256, 512, 1024, 2047, 2048, 2049};
    subject = "refused runs";
    make_noisy_frames(samples, 500, &setup, seed);
    for (size_t i = 0; i < sizeof sizes / sizeof sizes[0]; i++)
        compare_run(sizes[i], 500, 500);
    compare_run(bytes, 500, 499);
    compare_run(bytes, 500, 501);
    compare_run(bytes, 0, 1);
    compare_run(bytes, 1, 0);
    for (size_t i = 0; i < 60; i++) {
        size_t length = 1 + chance_below(&chance, 500);
        samples[chance_below(&chance, length)] = 32 + chance_below(&chance, 224);
        compare_run(bytes, length, length);
        compare_run(bytes, length, length - 1);
        compare_run(bytes + 1, length, length);
        compare_count(length, length);
        compare_count(length, 0);
        compare_listing(make_file(length), MOST_TEXT);
        if (i % 4 == 3)
            make_noisy_frames(samples, 500, &setup, seed + i);
    }
}

static void change_file(size_t length)
{
    size_t at = chance_below(&chance, chance_below(&chance, 2) == 0 && length > 40 ? 40 : length);
    if (chance_below(&chance, 3) == 0)
        file[at] = chance_below(&chance, 256);
    else
        file[at] ^= 1 << chance_below(&chance, 8);
}

static void compare_broken_files(void)
{
    subject = "broken files";
    for (size_t i = 0; i < 300; i++) {
        size_t length = any_length() / 4, whole;
        seed++;
        make_noisy_frames(samples, length, &setup, seed);
        whole = make_file(length);
        compare_listing(chance_below(&chance, whole + 1), MOST_TEXT);
        compare_listing(whole + chance_below(&chance, 6), MOST_TEXT);
        for (size_t changes = chance_below(&chance, 4); changes > 0; changes--)
            change_file(whole);
        compare_listing(whole, MOST_TEXT);
        compare_listing(whole, chance_below(&chance, 64));
    }
    for (size_t length = 0; length < 40; length++)
        compare_listing(length, MOST_TEXT);
    make_idle(samples, MOST_SAMPLES, &setup, seed);
    memset(file + make_file(MOST_SAMPLES), 0, 8);
    for (size_t length = 65530; length < 65545; length++)
        compare_listing(length, MOST_TEXT);
}

/* Files of exactly and just above the greatest length, filled by one record. */
static void compare_long_files(void)
{
    subject = "long files";
    memset(samples, 0, MOST_SAMPLES);
    for (size_t length = 65530; length <= 65540; length++) {
        memset(file, 0, MOST_FILE);
        make_file(0);
        put_two(12, length - 14);
        compare_listing(length, MOST_TEXT);
        file[0] = 0;
        compare_listing(length, MOST_TEXT);
    }
}

static void compare_settings(void)
{
    static const uint8_t editions[] = {0, 1, 2, 3, 127, 128, 255};
    subject = "settings";
    for (uint32_t part = 0; part < 256; part++) {
        for (size_t i = 0; i < sizeof editions; i++) {
            setup.part = part;
            setup.edition = editions[i];
            setup.write = chance_next(&chance) >> 48;
            same_answers(kippercrag_check_settings(setup.part, setup.edition, setup.write, 0, 65535),
                         plain_check_settings(setup.part, setup.edition, setup.write, 0, 65535));
            make_noisy_frames(samples, 40, &setup, part);
            compare_run(128 << part % 5, 40, part % 3 == 0 ? 39 : 40);
            compare_count(40, 2);
            samples[20] = part;
            compare_run(128 << part % 5, 40, 40);
            compare_count(40, 2);
            compare_listing(make_file(40), MOST_TEXT);
        }
    }
}

/* Any number of two bytes, often one next to a power of two, as the limits are. */
static uint16_t any_number(void)
{
    uint32_t power = 1u << chance_below(&chance, 17);
    if (chance_below(&chance, 2) == 0)
        return chance_below(&chance, power);
    return power - 1 + chance_below(&chance, 3);
}

static void compare_frame(size_t room)
{
    uint8_t org = chance_below(&chance, 3), pe = chance_below(&chance, 3) * 100;
    uint8_t kind = chance_below(&chance, chance_below(&chance, 20) == 0 ? 256 : 7);
    uint16_t address = any_number();
    uint16_t value = any_number();
    kippercrag_answer plain;
    setup.org = org;
    fill_alike(our_frame, plain_frame, kind == 0 ? MOST_FRAME : 200);
    plain = plain_write_frame(setup.part, org, pe, kind, address, value, plain_frame, room);
    if (plain.refusal == 0 && chance_below(&chance, 4) == 0) {
        fill_alike(our_frame, plain_frame, plain.length);
        room = plain.length - chance_below(&chance, 2);
        plain = plain_write_frame(setup.part, org, pe, kind, address, value, plain_frame, room);
    }
    same_answers(kippercrag_write_frame(setup.part, org, pe, kind, address, value, our_frame, room), plain);
    same_bytes("frames", our_frame, plain_frame, MOST_FRAME);
    frames_compared++;
}

static void compare_frames(void)
{
    static const uint8_t parts[] = {46, 56, 66, 76, 86};
    subject = "frames";
    setup.edition = 0;
    for (seed = 0; seed < 30000; seed++) {
        setup.part = chance_below(&chance, 50) == 0 ? chance_below(&chance, 256) : parts[chance_below(&chance, 5)];
        compare_frame(chance_below(&chance, 3) == 0 ? chance_below(&chance, 80) : MOST_FRAME);
    }
}

static void compare_chips(void)
{
    static const uint8_t chips[][2] = {{46, 0}, {56, 0}, {66, 0}, {76, 0}, {76, 1}, {86, 0}, {86, 1}};
    for (size_t i = 0; i < sizeof chips / sizeof chips[0]; i++) {
        for (uint8_t org = 0; org < 2; org++) {
            setup.part = chips[i][0];
            setup.edition = chips[i][1];
            setup.org = org;
            compare_traces_of_chip();
            compare_refused_runs();
            compare_broken_files();
            compare_long_files();
        }
    }
}

int main(void)
{
    chance_start(&chance, 93);
    compare_chips();
    compare_settings();
    compare_frames();
    printf("compared %llu samples, %llu listings, %llu frames, %llu refusals: 0 differences\n",
           (unsigned long long)samples_compared, (unsigned long long)listings_compared,
           (unsigned long long)frames_compared, (unsigned long long)refusals_compared);
    return 0;
}
