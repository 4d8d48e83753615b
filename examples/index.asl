// A machine whose routing registers stand behind an index register: port 0xC00 takes the number of a register, port 0xC01 its value.
DefinitionBlock ("index.aml", "DSDT", 2, "ACPIRT", "INDEX", 1)
{
    OperationRegion (PRTR, SystemIO, 0x0C00, 0x02)
    Field (PRTR, ByteAcc, NoLock, Preserve)
    {
        PIDX, 8,
        PDAT, 8
    }
    IndexField (PIDX, PDAT, ByteAcc, NoLock, Preserve)
    {
        PIRA, 8,
        PIRB, 8
    }

    Scope (\_SB)
    {
        Device (PCI0)
        {
            Name (_HID, EisaId ("PNP0A08"))
            Name (_PRT, Package ()
            {
                Package (4) { 0x0001FFFF, 0, LNKA, 0 },
                Package (4) { 0x0002FFFF, 0, LNKB, 0 }
            })
        }

        // What a register says, as a resource template: 0 is no interrupt.
        Method (CRSR, 1, Serialized)
        {
            Name (IRQB, ResourceTemplate () { IRQ (Level, ActiveLow, Shared) {} })
            CreateWordField (IRQB, One, IRQM)
            If (Arg0)
            {
                IRQM = One << Arg0
            }
            Return (IRQB)
        }

        // The number of the interrupt in a resource template.
        Method (SRSN, 1)
        {
            CreateWordField (Arg0, One, IRQM)
            FindSetRightBit (IRQM, Local0)
            Return (Local0 - One)
        }

        Device (LNKA)
        {
            Name (_HID, EisaId ("PNP0C0F"))
            Name (_UID, 1)
            Name (_PRS, ResourceTemplate () { IRQ (Level, ActiveLow, Shared) { 5, 10, 11 } })
            Method (_CRS, 0) { Return (CRSR (PIRA)) }
            Method (_SRS, 1) { PIRA = SRSN (Arg0) }
        }
        Device (LNKB)
        {
            Name (_HID, EisaId ("PNP0C0F"))
            Name (_UID, 2)
            Name (_PRS, ResourceTemplate () { IRQ (Level, ActiveLow, Shared) { 5, 10, 11 } })
            Method (_CRS, 0) { Return (CRSR (PIRB)) }
            Method (_SRS, 1) { PIRB = SRSN (Arg0) }
        }
    }
}
