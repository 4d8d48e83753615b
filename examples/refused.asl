// A machine that is refused: link LNKB offers its interrupt to itself alone (Exclusive).
DefinitionBlock ("refused.aml", "DSDT", 2, "ACPIRT", "REFUSED", 1)
{
    Scope (\_SB)
    {
        Device (LNKA)
        {
            Name (_HID, EisaId ("PNP0C0F"))
            Name (_PRS, ResourceTemplate () { IRQ (Level, ActiveLow, Shared) { 5, 10 } })
        }
        Device (LNKB)
        {
            Name (_HID, EisaId ("PNP0C0F"))
            Name (_PRS, ResourceTemplate () { IRQ (Level, ActiveLow, Exclusive) { 5, 10 } })
        }
        Device (PCI0)
        {
            Name (_HID, EisaId ("PNP0A03"))
            Name (_PRT, Package ()
            {
                Package (4) { 0x0001FFFF, 0, LNKA, 0 },
                Package (4) { 0x0001FFFF, 1, LNKB, 0 }
            })
        }
    }
}
