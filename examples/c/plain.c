/* plain: asks nanocore_decode what each of the 2^24 triples of bytes means, and nanocore_encode for the bytes of that.
   The sixth part has to be 1 where these are the given bytes over the instruction's length, 0 where they are not, and 0
   for an invalid opcode.
   Standard output gets one line, `decoded N, plain P, disagree D`. The exit status is 0 where no triple disagrees and
   1 otherwise. This takes a tenth of a second. */
#include <stdint.h>
#include <stdio.h>
#include <string.h>

#include "nanocore.h"

/* Whether the parts that decode gave are those that encode's bytes ask for. */
static int agrees(size_t answer, const uint8_t given[3], const size_t parts[6])
{
    uint8_t bytes[3];
    size_t length, values[2];
    if (answer == NANOCORE_INVALID_OPCODE)
        return parts[5] == 0;
    if (nanocore_encode((uint8_t)parts[0], (uint8_t)parts[1], (uint8_t)parts[2], (uint8_t)parts[3],
                        bytes, &length, values) != NANOCORE_DONE)
        return 0;
    size_t same = memcmp(bytes, given, length) == 0;
    return length == parts[4] && parts[5] == same;
}

int main(void)
{
    unsigned long decoded = 0, plain = 0, disagree = 0;
    for (uint32_t triple = 0; triple < 1ul << 24; triple++) {
        const uint8_t given[3] = {(uint8_t)(triple >> 16), (uint8_t)(triple >> 8), (uint8_t)triple};
        size_t parts[6] = {9, 9, 9, 9, 9, 9}; /* a sixth part that is not written is neither 0 nor 1 */
        size_t answer = nanocore_decode(given[0], given[1], given[2], parts);
        decoded += answer == NANOCORE_DONE;
        plain += parts[5] == 1;
        disagree += !agrees(answer, given, parts);
    }
    if (printf("decoded %lu, plain %lu, disagree %lu\n", decoded, plain, disagree) < 0 || fclose(stdout) != 0)
        return 1;
    return disagree != 0;
}
