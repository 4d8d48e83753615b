#include "chipset.h"

#include <stddef.h>

void chipset_reset(struct chipset *chipset) {
    for (size_t pin = 0; pin < sizeof chipset->routing; pin++)
        chipset->routing[pin] = 0x80;
    chipset->index = 0;
    for (size_t i = 0; i < sizeof chipset->behind; i++)
        chipset->behind[i] = 5;
}

/* The register of an access, or NULL where there is none. */
static uint8_t *register_of(struct chipset *chipset, const struct acpiroute_access *access) {
    if (access->width != 8)
        return NULL;
    if (access->space == ACPIROUTE_PCI && access->segment == 0 && access->bus == 0 && access->device == 1 &&
        access->function == 0 && access->address >= 0x60 && access->address <= 0x63)
        return &chipset->routing[access->address - 0x60];
    if (access->space == ACPIROUTE_IO && access->address == 0xC00)
        return &chipset->index;
    if (access->space == ACPIROUTE_IO && access->address == 0xC01 && chipset->index < sizeof chipset->behind)
        return &chipset->behind[chipset->index];
    return NULL;
}

void chipset_access(struct chipset *chipset, struct acpiroute_access *access) {
    uint8_t *at = register_of(chipset, access);
    if (at == NULL) {
        access->answer = ACPIROUTE_NO_REGISTER;
        return;
    }
    access->answer = ACPIROUTE_ANSWERED;
    if (access->kind == ACPIROUTE_WRITE)
        *at = (uint8_t)access->value;
    else
        access->value = *at;
}
