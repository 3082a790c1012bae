/* NanoCore in plain C, as one writes it from document 01: the measure that the proved machine is held to. */
#ifndef PLAIN_H
#define PLAIN_H

#include <stdbool.h>
#include <stddef.h>
#include <stdint.h>

struct plain_machine {
    uint8_t registers[16];
    uint8_t memory[256];
    uint8_t pc, sp, flags;
    bool halted;
    uint16_t count, limit;
};

/* The station's bytes with the place of the next, and the output with the number of bytes written. */
struct plain_ports {
    const uint8_t *input;
    size_t length, place;
    uint8_t *output;
    size_t room, written;
};

/* The same file compiled twice: each answers document 01's number of a run. */
int plain_run_o2(struct plain_machine *m, struct plain_ports *p);
int plain_run_o3(struct plain_machine *m, struct plain_ports *p);

#endif
