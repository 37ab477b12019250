/* Measures Kippercrag and the plain C machine on the same traces, in one run. */
#define _POSIX_C_SOURCE 199309L

#include "kippercrag.h"
#include "plain.h"
#include "traces.h"

#include <stdio.h>
#include <stdlib.h>
#include <string.h>
#include <time.h>

enum { LENGTH = 60000, ROOM = 4096, MOST_LISTED = 1024, BYTES = 2048, ROUNDS = 5 };

static const double ROUND_SECONDS = 0.15;

struct row {
    const char *name;
    trace_maker *make;
    uint16_t cycle;
};

static const struct row ROWS[] = {
    {"dense frames", make_dense_frames, 0},
    {"idle", make_idle, 0},
    {"reading runs", make_reading_runs, 0},
    {"status polling", make_status_polling, 4000},
};

struct job {
    struct trace_setup setup;
    size_t length;
    size_t file_length;
};

typedef kippercrag_answer call(const struct job *job);

static uint8_t memory[BYTES];
static uint8_t samples[LENGTH];
static uint8_t levels[LENGTH];
static uint8_t file[LENGTH + 14];
static uint8_t text[LENGTH];

static kippercrag_answer our_run(const struct job *j)
{
    return kippercrag_run_trace(j->setup.part, j->setup.edition, j->setup.write, j->setup.eral, j->setup.wrall, memory,
                                BYTES, samples, j->length, levels, j->length);
}

static kippercrag_answer plain_run(const struct job *j)
{
    return plain_run_trace(j->setup.part, j->setup.edition, j->setup.write, j->setup.eral, j->setup.wrall, memory,
                           BYTES, samples, j->length, levels, j->length);
}

static kippercrag_answer our_read(const struct job *j)
{
    return kippercrag_count_entries(j->setup.part, j->setup.edition, j->setup.write, j->setup.eral, j->setup.wrall,
                                    samples, j->length, ROOM);
}

static kippercrag_answer plain_read(const struct job *j)
{
    return plain_count_entries(j->setup.part, j->setup.edition, j->setup.write, j->setup.eral, j->setup.wrall, samples,
                               j->length, ROOM);
}

static kippercrag_answer our_list(const struct job *j)
{
    return kippercrag_list_trace(file, j->file_length, text, sizeof text);
}

static kippercrag_answer plain_list(const struct job *j)
{
    return plain_list_trace(file, j->file_length, text, sizeof text);
}

static double now(void)
{
    struct timespec t;
    clock_gettime(CLOCK_MONOTONIC, &t);
    return t.tv_sec + t.tv_nsec * 1e-9;
}

struct rates {
    double ours;
    double plain;
};

/* The seconds of some calls, as many as take LENGTH samples. */
static double time_of(call *made, const struct job *job)
{
    double start = now();
    for (size_t done = 0; done + job->length <= LENGTH; done += job->length) {
        if (made(job).refusal != 0) {
            printf("a measured call was refused\n");
            exit(1);
        }
    }
    return now() - start;
}

/* Samples a second. The two take turns, so that both meet the same load of the machine. */
static struct rates one_round(call *ours, call *plain, const struct job *job)
{
    struct rates spent = {0, 0};
    struct rates rates;
    double taken = 0;
    memset(memory, 255, BYTES);
    while (spent.ours < ROUND_SECONDS || spent.plain < ROUND_SECONDS) {
        spent.ours += time_of(ours, job);
        spent.plain += time_of(plain, job);
        taken += LENGTH / job->length * job->length;
    }
    rates.ours = taken / spent.ours;
    rates.plain = taken / spent.plain;
    return rates;
}

static struct rates measure(call *ours, call *plain, const struct job *job)
{
    struct rates best = {0, 0};
    for (int round = 0; round < ROUNDS; round++) {
        struct rates r = one_round(ours, plain, job);
        if (r.ours > best.ours)
            best.ours = r.ours;
        if (r.plain > best.plain)
            best.plain = r.plain;
    }
    return best;
}

static void put_two(uint8_t *p, uint32_t number)
{
    p[0] = number >> 8 & 255;
    p[1] = number & 255;
}

static void make_job(struct job *job, const struct row *row, uint8_t edition, size_t length)
{
    struct trace_setup setup = {86, edition, 1, row->cycle, row->cycle, row->cycle};
    job->setup = setup;
    job->length = length;
    job->file_length = length + 14;
    row->make(samples, length, &setup, 1);
    put_two(file, 0x9301);
    file[2] = setup.part;
    file[3] = setup.edition;
    put_two(file + 4, setup.write);
    put_two(file + 6, setup.eral);
    put_two(file + 8, setup.wrall);
    put_two(file + 10, 0x9302);
    put_two(file + 12, length);
    memcpy(file + 14, samples, length);
}

static double print_rates(const char *row, const char *name, uint8_t edition, struct rates r)
{
    double ratio = r.ours / r.plain;
    printf("%-15s %-10s %-8s %9.1f %9.1f %7.2f\n", row, name, edition ? "clock" : "fall", r.ours / 1e6, r.plain / 1e6,
           ratio);
    fflush(stdout);
    return ratio;
}

static double least(double a, double b)
{
    return a < b ? a : b;
}

static double bench_row(const struct row *row)
{
    double worst = 1e9;
    struct job job;
    for (uint8_t edition = 0; edition < 2; edition++) {
        make_job(&job, row, edition, LENGTH);
        worst = least(worst, print_rates(row->name, "run_trace", edition, measure(our_run, plain_run, &job)));
    }
    for (uint8_t edition = 0; edition < 2; edition++) {
        make_job(&job, row, edition, LENGTH);
        worst = least(worst, print_rates(row->name, "reader", edition, measure(our_read, plain_read, &job)));
    }
    for (uint8_t edition = 0; edition < 2; edition++) {
        make_job(&job, row, edition, LENGTH);
        if (plain_read(&job).length <= MOST_LISTED)
            print_rates(row->name, "listing", edition, measure(our_list, plain_list, &job));
        else
            printf("%-15s %-10s %-8s %9s %9s %7s\n", row->name, "listing", edition ? "clock" : "fall", "-", "-", "-");
    }
    return worst;
}

static void bench_lengths(void)
{
    static const size_t lengths[] = {1000, 4000, 16000, 60000};
    printf("\nnanoseconds a sample, dense frames, fall edition\n");
    printf("%-15s %10s %10s %10s %10s\n", "samples", "run ours", "run plain", "read ours", "read plain");
    for (size_t i = 0; i < sizeof lengths / sizeof lengths[0]; i++) {
        struct job job;
        struct rates run, read;
        make_job(&job, &ROWS[0], 0, lengths[i]);
        run = measure(our_run, plain_run, &job);
        read = measure(our_read, plain_read, &job);
        printf("%-15zu %10.2f %10.2f %10.2f %10.2f\n", lengths[i], 1e9 / run.ours, 1e9 / run.plain, 1e9 / read.ours,
               1e9 / read.plain);
        fflush(stdout);
    }
}

int main(void)
{
    double worst = 1e9;
    printf("million samples a second, part 86, ORG high, %d samples\n", LENGTH);
    printf("%-15s %-10s %-8s %9s %9s %7s\n", "trace", "call", "edition", "ours", "plain C", "ratio");
    for (size_t i = 0; i < sizeof ROWS / sizeof ROWS[0]; i++)
        worst = least(worst, bench_row(&ROWS[i]));
    bench_lengths();
    printf("\nleast ratio of run_trace and reader: %.2f\n", worst);
    return 0;
}
