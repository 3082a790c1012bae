/* The reader and the writer of the proved library, for interop/hex.py: a request after the other from standard input,
   and of each the answer on standard output, until the input ends.

     w, image, marks          -> number, two values; where the number is 0, as many bytes of text as the first value says
     r, length, text, image, marks  -> number, two values, image, marks

   Image and marks are 256 bytes. Numbers, values and lengths are four bytes, the lowest first. */
#include <stdint.h>
#include <stdio.h>
#include <stdlib.h>

#include "nanocore.h"

/* Any text of the writer has room; of the reader's, those that interop/hex.py has. */
enum { ROOM = 3596, LONGEST = 65536 };

static void fail(const char *what)
{
    fprintf(stderr, "hex: %s\n", what);
    exit(2);
}

static void get(uint8_t *bytes, size_t length)
{
    if (fread(bytes, 1, length, stdin) != length)
        fail("a request is cut");
}

static void put(const uint8_t *bytes, size_t length)
{
    if (fwrite(bytes, 1, length, stdout) != length)
        fail("the answer cannot be written");
}

static size_t get_number(void)
{
    uint8_t bytes[4];
    get(bytes, sizeof bytes);
    return bytes[0] | (size_t)bytes[1] << 8 | (size_t)bytes[2] << 16 | (size_t)bytes[3] << 24;
}

static void put_number(size_t number)
{
    uint8_t bytes[4];
    for (int i = 0; i < 4; i++)
        bytes[i] = (uint8_t)(number >> (8 * i));
    put(bytes, sizeof bytes);
}

static void put_answer(size_t answer, const size_t values[2])
{
    put_number(answer);
    put_number(values[0]);
    put_number(values[1]);
}

int main(void)
{
    static uint8_t image[NANOCORE_IMAGE], marks[NANOCORE_IMAGE], text[LONGEST];
    size_t answer, length, values[2];

    for (int request = getchar(); request != EOF; request = getchar()) {
        if (request == 'w') {
            get(image, sizeof image);
            get(marks, sizeof marks);
            answer = nanocore_write_hex(image, sizeof image, marks, sizeof marks, text, ROOM, values);
            put_answer(answer, values);
            if (answer == NANOCORE_DONE)
                put(text, values[0]);
        } else if (request == 'r') {
            length = get_number();
            if (length > LONGEST)
                fail("a text is too long");
            get(text, length);
            get(image, sizeof image);
            get(marks, sizeof marks);
            answer = nanocore_read_hex(text, length, image, sizeof image, marks, sizeof marks, values);
            put_answer(answer, values);
            put(image, sizeof image);
            put(marks, sizeof marks);
        } else {
            fail("there is no such request");
        }
        if (fflush(stdout) != 0)
            fail("the answer cannot be written");
    }
    return 0;
}
