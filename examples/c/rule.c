/* rule RULE [LIMIT]: runs the rule in the file RULE on the proved machine, with the station's bytes from standard
   input and at most LIMIT counted steps (0 to 65535; 1024 where it is not given). A file whose name ends in .hex is
   Intel HEX, any other holds the rule's bytes.
   Standard output gets exactly the bytes that the rule prints, standard error one line: the verdict, in the words of
   `./nanocore run`, or why there is none. The exit status is 0 after `halted`, 1 after `refused` and 2 otherwise. */
#include <errno.h>
#include <stdint.h>
#include <stdio.h>
#include <stdlib.h>
#include <string.h>

#include "nanocore.h"

/* The exit statuses. */
enum { HALTED = 0, REFUSED = 1, NO_VERDICT = 2 };

/* A step prints one byte at most, so no limit can print more. */
enum { HIGHEST_LIMIT = 65535, ROOM = 65536 };

/* All bytes of a file. */
struct bytes {
    uint8_t *first;
    size_t length;
};

/* Ends the program behind a failed call. */
static void fail(const char *what)
{
    fprintf(stderr, "rule: %s: %s\n", what, strerror(errno));
    exit(NO_VERDICT);
}

static void usage(void)
{
    fputs("usage: rule RULE [LIMIT], the limit a number of 0 to 65535 without leading zeros\n", stderr);
    exit(NO_VERDICT);
}

/* The first question, before any rule is read. In July three of forty nodes forecast snow: their build did not know STR
   and ran it as a NOP. A build like that counts fewer operations, and here it ends. */
static void ask_build(void)
{
    size_t layout = nanocore_version(), operations = nanocore_operations();
    if (layout == NANOCORE_LAYOUT && operations == NANOCORE_OPERATIONS)
        return;
    fprintf(stderr, "rule: this build has layout %zu and knows %zu operations; it must have layout %d and know %d\n",
            layout, operations, NANOCORE_LAYOUT, NANOCORE_OPERATIONS);
    exit(NO_VERDICT);
}

/* 90 says that the bytes are no machine. The record below always is one; were it not, there would be no verdict. */
static size_t of_machine(size_t answer)
{
    if (answer != NANOCORE_NO_MACHINE)
        return answer;
    fputs("rule: the record is no machine of this build\n", stderr);
    exit(NO_VERDICT);
}

static unsigned limit_of(const char *text)
{
    unsigned limit = 0;
    if (*text == '\0' || (text[0] == '0' && text[1] != '\0'))
        usage();
    for (; *text != '\0'; text++) {
        if (*text < '0' || *text > '9')
            usage();
        limit = 10 * limit + (unsigned)(*text - '0');
        if (limit > HIGHEST_LIMIT)
            usage();
    }
    return limit;
}

static struct bytes read_all(FILE *file, const char *name)
{
    struct bytes all = {NULL, 0};
    size_t room = 0;
    while (!feof(file)) {
        if (all.length == room) {
            room = room == 0 ? 4096 : 2 * room;
            uint8_t *more = realloc(all.first, room);
            if (more == NULL)
                fail(name);
            all.first = more;
        }
        all.length += fread(all.first + all.length, 1, room - all.length, file);
        if (ferror(file))
            fail(name);
    }
    return all;
}

/* However long the file is: what is too long for the memory, the library refuses with its length. */
static struct bytes read_rule(const char *name)
{
    FILE *file = fopen(name, "rb");
    if (file == NULL)
        fail(name);
    struct bytes rule = read_all(file, name);
    fclose(file);
    return rule;
}

/* The record's numbers of four bytes have the lowest first, whatever the processor has. */
static void put_number(uint8_t *field, unsigned long number)
{
    for (int i = 0; i < 4; i++)
        field[i] = (uint8_t)(number >> (8 * i));
}

static unsigned long number_at(const uint8_t *field)
{
    unsigned long number = 0;
    for (int i = 0; i < 4; i++)
        number |= (unsigned long)field[i] << (8 * i);
    return number;
}

/* A full disk shows when the bytes leave the buffer, at the latest in fclose. */
static void print(const uint8_t *bytes, size_t length)
{
    if (fwrite(bytes, 1, length, stdout) != length || fclose(stdout) != 0)
        fail("standard output");
}

/* What the value is called that comes with a number, or NULL where none does. The second value of 3 is the pc, which
   every verdict ends in. */
static const char *value_name(size_t answer)
{
    switch (answer) {
    case NANOCORE_INVALID_OPCODE:
    case NANOCORE_DIVISOR_ZERO:
        return "opcode";
    case NANOCORE_STACK_FULL:
    case NANOCORE_STACK_EMPTY:
        return "sp";
    case NANOCORE_LIMIT_REACHED:
        return "limit";
    case NANOCORE_HEX_SHAPE:
    case NANOCORE_HEX_CHECKSUM:
    case NANOCORE_HEX_OTHER_TYPE:
    case NANOCORE_HEX_PAST_END:
    case NANOCORE_HEX_SET_TWICE:
        return "line";
    default:
        return NULL;
    }
}

/* The verdict on a rule that ran: how it ended, and where the machine then stood. */
static int say_ended(size_t answer, const size_t values[2], const uint8_t *machine)
{
    unsigned long count = number_at(machine + NANOCORE_AT_COUNT);
    unsigned pc = machine[NANOCORE_AT_PC];
    const char *name = value_name(answer);
    int said;
    if (answer == NANOCORE_HALTS)
        said = fprintf(stderr, "halted count %lu pc %u\n", count, pc);
    else if (name != NULL)
        said = fprintf(stderr, "refused %zu %s %zu count %lu pc %u\n", answer, name, values[0], count, pc);
    else
        said = fprintf(stderr, "refused %zu count %lu pc %u\n", answer, count, pc);
    if (said < 0)
        return NO_VERDICT;
    return answer == NANOCORE_HALTS ? HALTED : REFUSED;
}

/* The verdict on a rule that is longer than the memory, or on a file that is no Intel HEX: nothing ran. */
static int say_not_loaded(size_t answer, const size_t values[2])
{
    const char *name = value_name(answer);
    int said;
    if (answer == NANOCORE_TOO_LONG)
        said = fprintf(stderr, "refused %zu length %zu start %zu\n", answer, values[0], values[1]);
    else if (name != NULL)
        said = fprintf(stderr, "refused %zu %s %zu\n", answer, name, values[0]);
    else
        said = fprintf(stderr, "refused %zu\n", answer);
    return said < 0 ? NO_VERDICT : REFUSED;
}

static int is_hex(const char *name)
{
    size_t length = strlen(name);
    return length > 4 && strcmp(name + length - 4, ".hex") == 0;
}

/* The bytes that a text of Intel HEX sets, each to its address. A fresh machine's pc is 0: there the rule begins. */
static size_t load_hex(uint8_t *machine, struct bytes text, size_t values[2])
{
    uint8_t image[NANOCORE_IMAGE] = {0}, marks[NANOCORE_IMAGE] = {0};
    size_t answer = nanocore_read_hex(text.first, text.length, image, sizeof image, marks, sizeof marks, values);
    if (answer != NANOCORE_DONE)
        return answer;
    return nanocore_transfer(machine, NANOCORE_RECORD, image, sizeof image, marks, sizeof marks);
}

/* A rule from its file's bytes to its verdict, in a machine of its own. */
static int run(struct bytes rule, int hex, struct bytes input, unsigned limit)
{
    static uint8_t output[ROOM];
    uint8_t machine[NANOCORE_RECORD];
    size_t place = 0, written = 0, values[2];

    of_machine(nanocore_fresh(machine, sizeof machine));
    put_number(machine + NANOCORE_AT_LIMIT, limit);

    size_t answer = of_machine(hex ? load_hex(machine, rule, values)
                                   : nanocore_load(machine, sizeof machine, rule.first, rule.length, 0, values));
    if (answer != NANOCORE_DONE)
        return say_not_loaded(answer, values);

    answer = of_machine(nanocore_run(machine, sizeof machine, input.first, input.length, &place,
                                     output, sizeof output, &written, values));
    print(output, written);
    return say_ended(answer, values, machine);
}

int main(int count, char **words)
{
    ask_build();
    if (count != 2 && count != 3)
        usage();
    unsigned limit = count == 3 ? limit_of(words[2]) : 1024;
    struct bytes rule = read_rule(words[1]);
    struct bytes input = read_all(stdin, "standard input");
    int status = run(rule, is_hex(words[1]), input, limit);
    free(rule.first);
    free(input.first);
    return status;
}
