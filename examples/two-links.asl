// Two link devices, and a pin that is wired to interrupt 10.
DefinitionBlock ("two-links.aml", "DSDT", 2, "ACPIRT", "TWOLINKS", 1)
{
    Scope (\_SB)
    {
        Device (LNKA)
        {
            Name (_HID, EisaId ("PNP0C0F"))
            Name (_PRS, ResourceTemplate () { IRQ (Level, ActiveLow, Shared) { 5, 10 } })
        }
        Device (LNKB)
        {
            Name (_HID, EisaId ("PNP0C0F"))
            Name (_PRS, ResourceTemplate () { IRQ (Level, ActiveLow, Shared) { 5 } })
        }
        Device (PCI0)
        {
            // Device 1 of the bus: pins A and B lead to the link devices, pin C to interrupt 10.
            Name (_PRT, Package (3)
            {
                Package (4) { 0x0001FFFF, Zero, LNKA, Zero },
                Package (4) { 0x0001FFFF, One, LNKB, Zero },
                Package (4) { 0x0001FFFF, 2, Zero, 10 }
            })
        }
    }
}
