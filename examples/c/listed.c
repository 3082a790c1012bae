/* listed: lists every program of up to three bytes by nanocore_list, and reads the text back by a reader that sees the
   text alone. The bytes read have to be the program; so no two of these programs list alike.
   Standard output gets one line, `listed N, read back otherwise M`. The exit status is 0 where M is 0 and 1 otherwise.
   This takes three seconds. */
#include <stdint.h>
#include <stdio.h>
#include <string.h>

#include "nanocore.h"

/* The longest program, and room for its text: at most three lines `0x00 .DB 0x00`. */
#define MOST 3
#define ROOM 64

/* The operations in the order of their opcodes. The library tells their forms, but not their names. */
static const char *const names[NANOCORE_OPERATIONS] = {
    "HLT", "NOP", "LDI", "LDA", "LDR", "MOV", "STORE", "PUSH", "POP", "ADD", "ADDI", "SUB", "SUBI", "INC", "DEC", "AND",
    "OR", "XOR", "NOT", "CMP", "SHL", "SHR", "JMP", "JZ", "JNZ", "PRINT", "MUL", "MULI", "DIV", "DIVI", "MOD", "MODI",
    "CALL", "RET", "ROL", "ROR", "IN", "JMPR", "CALLR", "STR"
};

/* The operands of each form by its number, `r` for a register and `b` for a byte. */
static const char *const operands[6] = {"", "rb", "rb", "r", "rr", "b"};

/* What is left of a text, and the bytes that were read. Each function below answers whether it could read what it is
   named for; where it could not, the text is no listing. */
struct reader {
    const uint8_t *at, *end;
    uint8_t bytes[MOST];
    size_t count;
};

static int next_is(const struct reader *r, char c)
{
    return r->at < r->end && *r->at == c;
}

static int read_word(struct reader *r, const char *word, size_t length)
{
    if ((size_t)(r->end - r->at) < length || memcmp(r->at, word, length) != 0)
        return 0;
    r->at += length;
    return 1;
}

/* `0x` and two digits in upper case. */
static int read_byte(struct reader *r, uint8_t *byte)
{
    static const char digits[] = "0123456789ABCDEF";
    const char *high, *low;
    if (!read_word(r, "0x", 2) || r->end - r->at < 2)
        return 0;
    high = memchr(digits, r->at[0], 16);
    low = memchr(digits, r->at[1], 16);
    if (high == NULL || low == NULL)
        return 0;
    *byte = (uint8_t)((high - digits) * 16 + (low - digits));
    r->at += 2;
    return 1;
}

/* `R` and a number without leading zeros. Encode refuses one above 15. */
static int read_register(struct reader *r, uint8_t *number)
{
    const uint8_t *first;
    if (!read_word(r, "R", 1))
        return 0;
    first = r->at;
    for (*number = 0; r->at < r->end && r->at - first < 2 && *r->at >= '0' && *r->at <= '9'; r->at++)
        *number = (uint8_t)(*number * 10 + (*r->at - '0'));
    return r->at - first == (*number < 10 ? 1 : 2);
}

/* A whole word that is a name. */
static int read_name(struct reader *r, uint8_t *opcode)
{
    const uint8_t *start = r->at;
    for (*opcode = 0; *opcode < NANOCORE_OPERATIONS; ++*opcode) {
        if (read_word(r, names[*opcode], strlen(names[*opcode])) && (next_is(r, ' ') || next_is(r, '\n')))
            return 1;
        r->at = start;
    }
    return 0;
}

static int keep(struct reader *r, const uint8_t *bytes, size_t length)
{
    if (length > MOST - r->count)
        return 0;
    memcpy(r->bytes + r->count, bytes, length);
    r->count += length;
    return 1;
}

/* What stands behind `.DB`: one byte or more, each behind a space. */
static int read_data(struct reader *r)
{
    do {
        uint8_t byte;
        if (!read_word(r, " ", 1) || !read_byte(r, &byte) || !keep(r, &byte, 1))
            return 0;
    } while (next_is(r, ' '));
    return 1;
}

/* A name and the operands of its form, and the bytes that encode gives for them. */
static int read_instruction(struct reader *r)
{
    uint8_t opcode, given[2] = {0, 0}, bytes[3];
    size_t parts[6], length, values[2];
    if (!read_name(r, &opcode) || nanocore_decode(opcode, 0, 0, parts) != NANOCORE_DONE)
        return 0;
    for (size_t i = 0; operands[parts[1]][i] != 0; i++) {
        if (!read_word(r, " ", 1))
            return 0;
        if (!(operands[parts[1]][i] == 'r' ? read_register(r, &given[i]) : read_byte(r, &given[i])))
            return 0;
    }
    return nanocore_encode(opcode, (uint8_t)parts[1], given[0], given[1], bytes, &length, values) == NANOCORE_DONE &&
           keep(r, bytes, length);
}

/* The address, which is the number of bytes before it, then one of the two, then LF. */
static int read_line(struct reader *r)
{
    uint8_t address;
    if (!read_byte(r, &address) || address != r->count || !read_word(r, " ", 1))
        return 0;
    return (read_word(r, ".DB", 3) ? read_data(r) : read_instruction(r)) && read_word(r, "\n", 1);
}

/* Whether the text of a program is read back as the program. */
static int reads_back(const uint8_t *program, size_t length, const uint8_t *text, size_t text_length)
{
    struct reader r = {text, text + text_length, {0}, 0};
    while (r.at < r.end)
        if (!read_line(&r))
            return 0;
    return r.count == length && memcmp(r.bytes, program, length) == 0;
}

int main(void)
{
    unsigned long listed = 0, otherwise = 0;
    for (size_t length = 0; length <= MOST; length++)
        for (uint32_t n = 0; n < 1ul << 8 * length; n++) {
            const uint8_t triple[MOST] = {(uint8_t)(n >> 16), (uint8_t)(n >> 8), (uint8_t)n};
            const uint8_t *program = triple + MOST - length;
            uint8_t text[ROOM];
            size_t values[2];
            int done = nanocore_list(program, length, 0, text, ROOM, values) == NANOCORE_DONE;
            listed += done;
            otherwise += !(done && reads_back(program, length, text, values[0]));
        }
    if (printf("listed %lu, read back otherwise %lu\n", listed, otherwise) < 0 || fclose(stdout) != 0)
        return 1;
    return otherwise != 0;
}
