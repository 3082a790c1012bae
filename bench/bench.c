/* Measures the proved library beside plain C, in one process: nanoseconds a step, the least of many rounds. Before anything is measured both must
   leave the same machine, place and output. */
#include <stdbool.h>
#include <stdio.h>
#include <stdlib.h>
#include <string.h>
#include <time.h>

#include "nanocore.h"
#include "plain.h"
#include "rules.h"

enum { INPUT = 4000, OUTPUT = 65536, LIMIT = 65535, SOURCE = 16384, TEXT = 16384 };

static uint8_t input[INPUT], output[OUTPUT];

typedef int plain_run(struct plain_machine *, struct plain_ports *);

static double now(void)
{
    struct timespec t;
    clock_gettime(CLOCK_MONOTONIC, &t);
    return t.tv_sec * 1e9 + t.tv_nsec;
}

static void least(double *best, double value)
{
    if (value < *best)
        *best = value;
}

/* A machine with the rule, as each side has it, and what stands beside it. */
struct plain_side {
    struct plain_machine machine;
    struct plain_ports ports;
};

struct host_side {
    uint8_t machine[NANOCORE_RECORD];
    size_t place, written, values[2];
};

static struct plain_side plain_start(const struct rule *rule)
{
    struct plain_side side = {
        .machine = {.sp = 0xFF, .limit = LIMIT},
        .ports = {.input = input, .length = INPUT, .output = output, .room = OUTPUT},
    };
    memcpy(side.machine.memory, rule->bytes, rule->length);
    return side;
}

static struct host_side host_start(const struct rule *rule)
{
    struct host_side side = {0};
    nanocore_fresh(side.machine, NANOCORE_RECORD);
    nanocore_load(side.machine, NANOCORE_RECORD, rule->bytes, rule->length, 0, side.values);
    side.machine[NANOCORE_AT_LIMIT] = LIMIT % 256;
    side.machine[NANOCORE_AT_LIMIT + 1] = LIMIT / 256;
    return side;
}

static size_t host_step(struct host_side *side)
{
    return nanocore_step(side->machine, NANOCORE_RECORD, input, INPUT, &side->place, output, OUTPUT, &side->written,
                         side->values);
}

static size_t host_run(struct host_side *side)
{
    return nanocore_run(side->machine, NANOCORE_RECORD, input, INPUT, &side->place, output, OUTPUT, &side->written,
                        side->values);
}

static size_t host_steps(struct host_side *side)
{
    size_t answer;
    do
        answer = host_step(side);
    while (answer == NANOCORE_DONE);
    return answer;
}

static bool same(const struct plain_side *p, size_t plain_answer, const struct host_side *h, size_t host_answer)
{
    const uint8_t *r = h->machine;
    const struct plain_machine *m = &p->machine;
    return plain_answer == host_answer && r[NANOCORE_AT_PC] == m->pc && r[NANOCORE_AT_SP] == m->sp &&
           r[NANOCORE_AT_FLAGS] == m->flags && r[NANOCORE_AT_HALTED] == m->halted &&
           r[NANOCORE_AT_COUNT] + 256 * r[NANOCORE_AT_COUNT + 1] == m->count &&
           memcmp(r + NANOCORE_AT_REGISTERS, m->registers, 16) == 0 &&
           memcmp(r + NANOCORE_AT_MEMORY, m->memory, 256) == 0 && h->place == p->ports.place &&
           h->written == p->ports.written;
}

/* How many steps the rule takes; ends the program where the sides differ. */
static unsigned check(const struct rule *rule)
{
    static uint8_t printed[OUTPUT];
    struct plain_side p2 = plain_start(rule), p3 = plain_start(rule);
    struct host_side run = host_start(rule), steps = host_start(rule);
    size_t a2 = plain_run_o2(&p2.machine, &p2.ports);
    memcpy(printed, output, OUTPUT);
    size_t a3 = plain_run_o3(&p3.machine, &p3.ports);
    bool alike = memcmp(printed, output, OUTPUT) == 0;
    memset(output, 0, OUTPUT);
    size_t run_answer = host_run(&run);
    alike = alike && memcmp(printed, output, OUTPUT) == 0;
    memset(output, 0, OUTPUT);
    size_t steps_answer = host_steps(&steps);
    alike = alike && memcmp(printed, output, OUTPUT) == 0;
    if (!alike || !same(&p2, a2, &run, run_answer) || !same(&p3, a3, &run, run_answer) ||
        !same(&p2, a2, &steps, steps_answer)) {
        fprintf(stderr, "%s: the library and plain C differ\n", rule->name);
        exit(1);
    }
    return p2.machine.count;
}

static double time_plain(plain_run *run, const struct rule *rule)
{
    struct plain_side side = plain_start(rule);
    double start = now();
    run(&side.machine, &side.ports);
    return now() - start;
}

static double time_host(size_t run(struct host_side *), const struct rule *rule)
{
    struct host_side side = host_start(rule);
    double start = now();
    run(&side);
    return now() - start;
}

/* The line of a rule. Answers run's time by that of -O3. */
static double measure(const struct rule *rule, int rounds)
{
    unsigned steps = check(rule);
    double o2 = 1e18, o3 = 1e18, run = 1e18, step = 1e18;
    for (int i = 0; i < rounds; i++) {
        least(&o2, time_plain(plain_run_o2, rule));
        least(&o3, time_plain(plain_run_o3, rule));
        least(&run, time_host(host_run, rule));
        if (i % 10 == 0)
            least(&step, time_host(host_steps, rule));
    }
    printf("%s steps %u O2 %.2f O3 %.2f run %.2f step %.1f\n", rule->name, steps, o2 / steps, o3 / steps, run / steps,
           step / steps);
    return run / o3;
}

/* 256 bytes of instructions, one after the other. */
static void measure_listing(int rounds)
{
    static uint8_t text[TEXT];
    uint8_t program[256];
    size_t values[2], answer = 0;
    for (int i = 0; i < 256; i++)
        program[i] = (uint8_t)(input[i] % 40);
    double best = 1e18;
    for (int i = 0; i < rounds; i++) {
        double start = now();
        answer = nanocore_list(program, sizeof program, 0, text, TEXT, values);
        least(&best, now() - start);
    }
    printf("listing of 256 bytes: answer %zu, %zu bytes of text, %.2f us\n", answer, values[0], best / 1e3);
}

/* 64 labels, and ordinary lines behind each up to the largest source. */
static void measure_labels(int rounds)
{
    static char source[SOURCE + 1];
    uint16_t places[64], lengths[64];
    uint8_t addresses[64];
    size_t length = 0, count = 0, values[2], answer = 0;
    for (int i = 0; i < 64; i++) {
        length += sprintf(source + length, "label%02d: ; the next\n", i);
        while (length + 20 <= (size_t)SOURCE * (i + 1) / 64)
            length += sprintf(source + length, "    ADD R1 R2 ; more\n" + (length % 2));
    }
    while (length < SOURCE)
        source[length++] = '\n';
    double best = 1e18;
    for (int i = 0; i < rounds; i++) {
        double start = now();
        answer = nanocore_labels((const uint8_t *)source, length, &count, places, lengths, addresses, values);
        least(&best, now() - start);
    }
    printf("address pass at %zu bytes: answer %zu, %zu labels, %.2f us\n", length, answer, count, best / 1e3);
}

/* 256 set bytes, as Intel HEX and back. */
static void measure_hex(int rounds)
{
    static uint8_t text[TEXT];
    uint8_t image[256], marks[256];
    size_t values[2], wrote = 0, length = 0, read = 0;
    memcpy(image, input, sizeof image);
    memset(marks, 1, sizeof marks);
    double out = 1e18, in = 1e18;
    for (int i = 0; i < rounds; i++) {
        double start = now();
        wrote = nanocore_write_hex(image, sizeof image, marks, sizeof marks, text, TEXT, values);
        least(&out, now() - start);
        length = values[0];
        start = now();
        read = nanocore_read_hex(text, length, image, sizeof image, marks, sizeof marks, values);
        least(&in, now() - start);
    }
    printf("HEX of 256 bytes: answers %zu %zu, %zu bytes of text, written in %.2f us, read in %.2f us\n", wrote, read, length,
           out / 1e3, in / 1e3);
}

static void keep(const char *folder, const char *name, const uint8_t *bytes, size_t length)
{
    char path[4096];
    snprintf(path, sizeof path, "%s/%s", folder, name);
    FILE *file = fopen(path, "wb");
    if (file == NULL || fwrite(bytes, 1, length, file) != length || fclose(file) != 0) {
        perror(path);
        exit(2);
    }
}

/* The rules and the input as files, for whoever measures something else with them. */
static void keep_rules(const char *folder)
{
    keep(folder, "input", input, INPUT);
    for (size_t i = 0; i < sizeof rules / sizeof *rules; i++)
        keep(folder, rules[i].name, rules[i].bytes, rules[i].length);
}

int main(int count, char **words)
{
    uint32_t seed = 1;
    for (int i = 0; i < INPUT; i++) {
        seed = seed * 1103515245u + 12345u;
        input[i] = (uint8_t)(seed >> 16);
    }
    if (count == 3 && strcmp(words[1], "keep") == 0) {
        keep_rules(words[2]);
        return 0;
    }
    int rounds = count == 2 ? atoi(words[1]) : 0;
    if (rounds < 1) {
        fprintf(stderr, "usage: bench ROUNDS, at least 1; or bench keep FOLDER, which writes rules and input there\n");
        return 2;
    }
    double worst = 0;
    for (size_t i = 0; i < sizeof rules / sizeof *rules; i++) {
        double ratio = measure(&rules[i], rounds);
        if (ratio > worst)
            worst = ratio;
    }
    measure_listing(rounds);
    measure_labels(rounds);
    measure_hex(rounds);
    printf("worst run to O3 %.2f\n", worst);
    return 0;
}
