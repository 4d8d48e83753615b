// A board that writes the routing of its root ports by Switch, as many coreboot boards do. iasl makes a Match of a Case with a Package,
// and the methods of both root ports lead there.
DefinitionBlock ("switch.aml", "DSDT", 2, "ACPIRT", "SWITCH", 1)
{
    Name (PICM, 0)
    Method (_PIC, 1) { PICM = Arg0 }

    // Pins A and B of the device behind a root port, by the number of the port.
    Method (IRQM, 1, Serialized)
    {
        Name (EVEN, Package () { Package (4) { 0x0000FFFF, 0, 0, 17 }, Package (4) { 0x0000FFFF, 1, 0, 18 } })
        Name (ODD_, Package () { Package (4) { 0x0000FFFF, 0, 0, 16 }, Package (4) { 0x0000FFFF, 1, 0, 17 } })
        Name (BYLN, Package () { Package (4) { 0x0000FFFF, 0, \_SB.LNKA, 0 }, Package (4) { 0x0000FFFF, 1, \_SB.LNKB, 0 } })
        If (!PICM) { Return (BYLN) }
        Switch (ToInteger (Arg0))
        {
            Case (Package () { 1, 3 }) { Return (ODD_) }
            Case (Package () { 2, 4 }) { Return (EVEN) }
        }
        Return (ODD_)
    }

    Scope (\_SB)
    {
        Device (LNKA)
        {
            Name (_HID, EisaId ("PNP0C0F"))
            Name (_PRS, ResourceTemplate () { IRQ (Level, ActiveLow, Shared) { 5, 10, 11 } })
        }
        Device (LNKB)
        {
            Name (_HID, EisaId ("PNP0C0F"))
            Name (_PRS, ResourceTemplate () { IRQ (Level, ActiveLow, Shared) { 5, 10, 11 } })
        }
        Device (PCI0)
        {
            Name (_HID, EisaId ("PNP0A08"))
            Name (_CID, EisaId ("PNP0A03"))
            Name (_PRT, Package () { Package (4) { 0x001FFFFF, 0, 0, 20 } })
            Device (RP01)
            {
                Name (_ADR, 0x001C0000)
                Method (_PRT) { Return (IRQM (1)) }
            }
            Device (RP02)
            {
                Name (_ADR, 0x001C0001)
                Method (_PRT) { Return (IRQM (2)) }
            }
        }
    }
}
