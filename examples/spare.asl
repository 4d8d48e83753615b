// A machine with devices of the ISA bus beside its link devices: a keyboard, a serial port, one that is absent, and two whose resources can't
// be read.
DefinitionBlock ("spare.aml", "DSDT", 2, "ACPIRT", "SPARE", 1)
{
    External (\NONE, IntObj)

    Scope (\_SB)
    {
        Device (LNKA)
        {
            Name (_HID, EisaId ("PNP0C0F"))
            Name (_PRS, ResourceTemplate () { IRQ (Level, ActiveLow, Shared) { 4, 5, 10, 11 } })
        }
        Device (LNKB)
        {
            Name (_HID, EisaId ("PNP0C0F"))
            Name (_PRS, ResourceTemplate () { IRQ (Level, ActiveLow, Shared) { 4, 5, 10, 11 } })
        }
        Device (LNKC)
        {
            Name (_HID, EisaId ("PNP0C0F"))
            Name (_PRS, ResourceTemplate () { IRQ (Level, ActiveLow, Shared) { 4, 5, 10, 11 } })
        }
        Device (LNKD)
        {
            Name (_HID, EisaId ("PNP0C0F"))
            Name (_PRS, ResourceTemplate () { IRQ (Level, ActiveLow, Shared) { 4, 5, 10, 11 } })
        }
        Device (PCI0)
        {
            Name (_HID, EisaId ("PNP0A03"))
            // A root bridge has resources, but no interrupts.
            Name (_CRS, ResourceTemplate () { IO (Decode16, 0xCF8, 0xCF8, 1, 8) })
            Name (_PRT, Package ()
            {
                Package (4) { 0x0001FFFF, 0, LNKA, 0 },
                Package (4) { 0x0001FFFF, 1, LNKB, 0 },
                Package (4) { 0x0001FFFF, 2, LNKC, 0 },
                Package (4) { 0x0001FFFF, 3, LNKD, 0 }
            })
            Device (ISA)
            {
                Name (_ADR, 0x001F0000)
                Device (KBD)
                {
                    Name (_HID, EisaId ("PNP0303"))
                    Name (_CRS, ResourceTemplate () { IO (Decode16, 0x60, 0x60, 1, 1) IRQNoFlags () { 1 } })
                }
                Device (COM1)
                {
                    Name (_HID, EisaId ("PNP0501"))
                    Method (_STA) { Return (0x0F) }
                    Name (_CRS, ResourceTemplate () { IO (Decode16, 0x3F8, 0x3F8, 1, 8) IRQNoFlags () { 4 } })
                }
                Device (COM2)
                {
                    Name (_HID, EisaId ("PNP0501"))
                    // It is absent, and so is its interrupt.
                    Method (_STA) { Return (0) }
                    Name (_CRS, ResourceTemplate () { IO (Decode16, 0x2F8, 0x2F8, 1, 8) IRQNoFlags () { 5 } })
                }
                Device (FDC)
                {
                    Name (_HID, EisaId ("PNP0700"))
                    // It uses a name that no table declares.
                    Method (_CRS) { Return (NONE) }
                }
                Device (LPT)
                {
                    Name (_HID, EisaId ("PNP0400"))
                    // It answers no Buffer.
                    Method (_CRS) { Local0 = 7 Return (Local0) }
                }
            }
        }
    }
}
