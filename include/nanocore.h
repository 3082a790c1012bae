/* NanoCore for C: the proved machine, behind thirteen functions. Link the archive that `rt lib` writes in crates/host
   (crates/host/out/libhost.a, for x86-64 Linux); examples/c shows how.

   Every function answers on all bytes, lengths and numbers. What it answers is one of document 01's numbers, one of 19
   to 26, which came with Intel HEX, or 90. The values that come with a number go to values[0] and values[1], 0 for a
   value that there is not; after 90 they are as they were, like all else. What a function leaves in everything that it
   is lent is written beside it, and proved (crates/host). It keeps nothing between two calls, reads and writes nothing
   but what it is lent, and several threads may call at once, each with its own.

   The caller owes what C cannot test: each pointer leads to as many bytes or numbers as its length or its type
   says, is not NULL where the length is not 0, and no two of one call overlap, where one of them is written. */
#ifndef NANOCORE_H
#define NANOCORE_H

#include <stddef.h>
#include <stdint.h>

#ifdef __cplusplus
extern "C" {
#endif

/* A machine is a record of 296 bytes, numbers of more than one byte with the lowest byte first:

     0       the version of this layout, 1        8..11   count, 0 to 65,535
     1       the set of operations, 1            12..15   limit, 0 to 65,535
     2       pc                                  16..19   0, kept for a sum
     3       sp                                  20..23   0
     4       flags, 0 to 255: Z 1, C 2, N 4, Y 8 24..39   registers R0 to R15
     5       halted, 0 or 1                      40..295  memory
     6..7    0

   One machine has one record, and a record may be kept, copied, compared and sent. Each field may be written by hand:
   within the ranges above it is a machine, outside them it is none. What was a record before a call is one after it. */
#define NANOCORE_RECORD 296

enum nanocore_field {
    NANOCORE_AT_VERSION = 0,
    NANOCORE_AT_SET = 1,
    NANOCORE_AT_PC = 2,
    NANOCORE_AT_SP = 3,
    NANOCORE_AT_FLAGS = 4,
    NANOCORE_AT_HALTED = 5,
    NANOCORE_AT_COUNT = 8,
    NANOCORE_AT_LIMIT = 12,
    NANOCORE_AT_REGISTERS = 24,
    NANOCORE_AT_MEMORY = 40
};

/* The numbers that come back, with their values in order. */
enum nanocore_answer {
    NANOCORE_DONE = 0,               /* stepped, or done; of a listing or written HEX the length of its text */
    NANOCORE_HALTS = 1,              /* a step that executed HLT, or a run's end */
    NANOCORE_ALREADY_HALTED = 2,     /* step alone */
    NANOCORE_INVALID_OPCODE = 3,     /* the opcode; of a step or a run then pc */
    NANOCORE_STACK_FULL = 4,         /* sp */
    NANOCORE_STACK_EMPTY = 5,        /* sp */
    NANOCORE_DIVISOR_ZERO = 6,       /* the opcode */
    NANOCORE_NO_INPUT = 7,
    NANOCORE_NO_ROOM = 8,
    NANOCORE_COUNT_FULL = 9,         /* step alone: the count is 65,535 */
    NANOCORE_LIMIT_REACHED = 10,     /* run alone: the limit */
    NANOCORE_TOO_LONG = 11,          /* start + length is above 256: the length, then the start */
    NANOCORE_OTHER_FORM = 12,
    NANOCORE_NO_SUCH_REGISTER = 13,
    NANOCORE_TEXT_TOO_LONG = 14,     /* the length that the text needs */
    NANOCORE_NO_SOURCE = 15,         /* above 16,384 bytes, or a byte above 0x7F */
    NANOCORE_SHORT_STRING = 16,      /* .STRING with fewer than two quotes: the line */
    NANOCORE_UNKNOWN_OPERATION = 17, /* the line */
    NANOCORE_TOO_MANY_LABELS = 18,   /* a 65th label name: the line */
    NANOCORE_NO_IMAGE = 19,          /* image or marks are not 256 long */
    NANOCORE_HEX_SHAPE = 20,         /* no record: the line */
    NANOCORE_HEX_CHECKSUM = 21,      /* the line */
    NANOCORE_HEX_OTHER_TYPE = 22,    /* neither 00 nor 01: the line */
    NANOCORE_HEX_PAST_END = 23,      /* a byte past address 255: the line */
    NANOCORE_HEX_SET_TWICE = 24,     /* a byte that an earlier line has set: the line */
    NANOCORE_HEX_NO_END = 25,
    NANOCORE_HEX_TEXT_AFTER = 26,    /* something behind the end record */
    NANOCORE_NO_MACHINE = 90         /* the bytes are no machine of this build; nothing was changed */
};

/* What this header was written for. */
#define NANOCORE_LAYOUT 1
#define NANOCORE_OPERATIONS 40

/* The version of the record's layout, 1: byte 0 of every record. */
size_t nanocore_version(void);

/* How many of the 256 opcode bytes this build knows: 40. A build that does not know one of them answers less; ask
   before you trust a node. */
size_t nanocore_operations(void);

/* Writes the record of a fresh machine: all 0, but sp 255 and limit 1024.
   Answers 0, or 90 where the length is not 296: then nothing is changed. */
size_t nanocore_fresh(uint8_t *machine, size_t machine_length);

/* Copies a program into memory from a start address on and sets pc to it. Halted, count, registers and the rest of
   memory stay: begin each rule with nanocore_fresh, or a machine that has halted stays halted.
   Answers 0; 11 with the program's length and the start, and the machine is as it was; or 90. */
size_t nanocore_load(uint8_t *machine, size_t machine_length,
                     const uint8_t *program, size_t program_length, uint8_t start,
                     size_t values[2]);

/* One instruction. IN takes the input's byte at *place, PRINT puts a byte into the output at *written, and each then
   raises its number; a number at or past the length means that none is left.
   Answers 0, 1, 2, 3 to 8, 9, or 90. After 2 to 9 machine, *place, *written and output are as they were. */
size_t nanocore_step(uint8_t *machine, size_t machine_length,
                     const uint8_t *input, size_t input_length, size_t *place,
                     uint8_t *output, size_t output_length, size_t *written,
                     size_t values[2]);

/* Steps until the machine halts, an instruction is refused, or the count is at or above the limit.
   Answers 1, at once where the machine has halted already, 3 to 8, 10, or 90. After 3 to 10 all is as the last completed step left it. Of the output no byte but
   those printed is written. */
size_t nanocore_run(uint8_t *machine, size_t machine_length,
                    const uint8_t *input, size_t input_length, size_t *place,
                    uint8_t *output, size_t output_length, size_t *written,
                    size_t values[2]);

/* What three bytes mean. The parts are opcode, form, first operand, second operand, length and plain. A form's number:
   0 none; 1 register, value; 2 register, address; 3 register; 4 two registers; 5 address. An operand that the form
   does not have is 0. Plain is 1 where the bytes are the instruction's plain spelling, the one that nanocore_encode
   gives, and 0 where they are another: 0D 01 is the plain spelling of INC R1, and 0D F1 is INC R1 too. Where a register
   stands alone in its byte the high nibble means nothing, and encode puts 0 there. Bytes behind the instruction's
   length are not looked at.
   Answers 0; or 3, and of the parts all but the opcode are 0.
   The sixth part came with this header. A caller that has room for five must be changed, since six are written;
   nanocore_version, which is the record's, is the same before and after. */
size_t nanocore_decode(uint8_t opcode, uint8_t second, uint8_t third, size_t parts[6]);

/* The bytes of an instruction, and how many of the three it takes; the others are 0. An operand that the form does
   not have is not looked at.
   Answers 0; 3 with the opcode, 12 or 13, and then length and bytes are 0. */
size_t nanocore_encode(uint8_t opcode, uint8_t form, uint8_t first, uint8_t second,
                       uint8_t bytes[3], size_t *length, size_t values[2]);

/* A program in words, a line for each instruction, as it stands from the start address on. What is not in plain
   spelling is .DB with all its bytes, so where two texts of one start are equal, the programs are. 16,384 bytes are
   room for any.
   Answers 0 with the text's length; 11 with the program's length and the start; 14 with the length that the text
   needs. After 0 the text stands first in the buffer, whose other bytes are as they were; after 11 and 14 all are. */
size_t nanocore_list(const uint8_t *program, size_t program_length, uint8_t start,
                     uint8_t *text, size_t text_length, size_t values[2]);

/* The labels of a source in the order of their first appearance: of each the place and the length of its name in the
   source, and its address. Entries from the count on are 0. What a source is, docs/MACHINE.md says in section 12; its
   first line is line 1.
   Answers 0; or 15, or 16 to 18 with the line, and then count and entries are 0. */
size_t nanocore_labels(const uint8_t *source, size_t source_length, size_t *count,
                       uint16_t places[64], uint16_t lengths[64], uint8_t addresses[64],
                       size_t values[2]);

/* An image is 256 bytes, one for each address, with a mark each: 0 where the byte is clear, else it is set. Where image
   or marks have another length the three functions below answer 19 before they look at anything else, and leave image,
   marks, text and machine as they were. */
#define NANOCORE_IMAGE 256

/* Reads Intel HEX, records of type 00 and 01, onto an image and its marks. The marks are taken as clear. Afterwards
   those of the bytes that the text sets are 1 and all others 0, and the other bytes of the image are as they were. What
   a line and a text are, docs/MACHINE.md says in section 13; the first line is line 1.
   Answers 0; 19; 20 to 24 with the line; 25 or 26. After all but 0 image and marks are as they were. */
size_t nanocore_read_hex(const uint8_t *text, size_t text_length,
                         uint8_t *image, size_t image_length, uint8_t *marks, size_t marks_length,
                         size_t values[2]);

/* Writes the set bytes of an image as Intel HEX: with rising addresses a record for each unbroken run of them, cut at
   addresses divisible by 16, in upper case with LF, and then the end record. 3,596 bytes are room for any.
   Answers 0 with the text's length; 19; or 14 with the length that the text needs. After 0 the text stands first in the
   buffer, whose other bytes are as they were; after 19 and 14 all are. */
size_t nanocore_write_hex(const uint8_t *image, size_t image_length, const uint8_t *marks, size_t marks_length,
                          uint8_t *text, size_t text_length, size_t values[2]);

/* Copies the set bytes of an image into memory, each to its own address. Nothing else is changed: pc stays where it is,
   and so do halted and count, as with nanocore_load.
   Answers 0; 19, also where the bytes are no machine; or 90. */
size_t nanocore_transfer(uint8_t *machine, size_t machine_length,
                         const uint8_t *image, size_t image_length, const uint8_t *marks, size_t marks_length);

#ifdef __cplusplus
}
#endif

#endif
