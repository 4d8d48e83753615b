/*
 * A small model of a chipset, in place of hardware: an interrupt router with a register of one byte for each pin, and a few registers
 * behind an index register.
 */
#ifndef CHIPSET_H
#define CHIPSET_H

#include <stdint.h>

#include "acpiroute.h"

struct chipset {
    /* Registers 60 to 63 of function 0 of device 1 on PCI bus 0: where the pins A to D are routed. */
    uint8_t routing[4];
    /* Port C00: which of the registers below port C01 shows. */
    uint8_t index;
    uint8_t behind[2];
};

/* A chipset as its firmware leaves it. */
void chipset_reset(struct chipset *chipset);

/* Makes an access, and puts its answer into it. */
void chipset_access(struct chipset *chipset, struct acpiroute_access *access);

#endif
