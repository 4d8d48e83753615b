// A machine like a Q35 chipset. Its routing table has two forms: with the 8259 interrupt controllers (mode pic) the pins lead to eight
// link devices, with the I/O APIC (mode apic) they are wired to interrupts 16 to 23.
DefinitionBlock ("q35.aml", "DSDT", 2, "ACPIRT", "Q35", 1)
{
    // 0: 8259 controllers, 1: I/O APICs
    Name (PICF, Zero)
    Method (_PIC, 1)
    {
        PICF = Arg0
    }

    Scope (\_SB)
    {
        Device (PCI0)
        {
            Name (_HID, EisaId ("PNP0A08"))
            Name (_CID, EisaId ("PNP0A03"))

            Name (PRTP, Package ()
            {
                Package (4) { 0x0002FFFF, 0, LNKA, 0 },
                Package (4) { 0x0019FFFF, 0, LNKE, 0 },
                Package (4) { 0x001CFFFF, 0, LNKB, 0 },
                Package (4) { 0x001CFFFF, 1, LNKF, 0 },
                Package (4) { 0x001CFFFF, 2, LNKG, 0 },
                Package (4) { 0x001CFFFF, 3, LNKH, 0 },
                Package (4) { 0x001DFFFF, 0, LNKH, 0 },
                Package (4) { 0x001DFFFF, 1, LNKD, 0 },
                Package (4) { 0x001FFFFF, 1, LNKC, 0 },
                Package (4) { 0x001FFFFF, 2, LNKD, 0 }
            })
            Name (PRTA, Package ()
            {
                Package (4) { 0x0002FFFF, 0, 0, 16 },
                Package (4) { 0x0019FFFF, 0, 0, 20 },
                Package (4) { 0x001CFFFF, 0, 0, 17 },
                Package (4) { 0x001CFFFF, 1, 0, 21 },
                Package (4) { 0x001CFFFF, 2, 0, 22 },
                Package (4) { 0x001CFFFF, 3, 0, 23 },
                Package (4) { 0x001DFFFF, 0, 0, 23 },
                Package (4) { 0x001DFFFF, 1, 0, 19 },
                Package (4) { 0x001FFFFF, 1, 0, 18 },
                Package (4) { 0x001FFFFF, 2, 0, 19 }
            })
            Method (_PRT, 0)
            {
                If (PICF)
                {
                    Return (PRTA)
                }
                Return (PRTP)
            }

            // The LPC bridge: a register for each link, whose bit 7 is set where the link is routed nowhere.
            Device (LPC)
            {
                Name (_ADR, 0x001F0000)
                OperationRegion (PIRQ, PCI_Config, 0x60, 0x0C)
                Field (PIRQ, ByteAcc, NoLock, Preserve)
                {
                    PRQA, 8,
                    PRQB, 8,
                    PRQC, 8,
                    PRQD, 8,
                    Offset (0x08),
                    PRQE, 8,
                    PRQF, 8,
                    PRQG, 8,
                    PRQH, 8
                }
            }
        }

        // What a register says, as a resource template.
        Method (CRSR, 1, Serialized)
        {
            Name (IRQB, ResourceTemplate () { IRQ (Level, ActiveLow, Shared) {} })
            CreateWordField (IRQB, One, IRQM)
            If (!(Arg0 & 0x80))
            {
                IRQM = One << (Arg0 & 0x0F)
            }
            Return (IRQB)
        }

        // The number of the interrupt in a resource template.
        Method (SRSN, 1)
        {
            CreateWordField (Arg0, One, IRQM)
            FindSetRightBit (IRQM, Local0)
            Return (Local0 - One)
        }

        Device (LNKA)
        {
            Name (_HID, EisaId ("PNP0C0F"))
            Name (_UID, 1)
            Name (_PRS, ResourceTemplate () { IRQ (Level, ActiveLow, Shared) { 10, 11 } })
            Method (_CRS, 0) { Return (CRSR (\_SB.PCI0.LPC.PRQA)) }
            Method (_SRS, 1) { \_SB.PCI0.LPC.PRQA = SRSN (Arg0) }
            Method (_DIS, 0) { \_SB.PCI0.LPC.PRQA |= 0x80 }
        }
        Device (LNKB)
        {
            Name (_HID, EisaId ("PNP0C0F"))
            Name (_UID, 2)
            Name (_PRS, ResourceTemplate () { IRQ (Level, ActiveLow, Shared) { 10, 11 } })
            Method (_CRS, 0) { Return (CRSR (\_SB.PCI0.LPC.PRQB)) }
            Method (_SRS, 1) { \_SB.PCI0.LPC.PRQB = SRSN (Arg0) }
            Method (_DIS, 0) { \_SB.PCI0.LPC.PRQB |= 0x80 }
        }
        Device (LNKC)
        {
            Name (_HID, EisaId ("PNP0C0F"))
            Name (_UID, 3)
            Name (_PRS, ResourceTemplate () { IRQ (Level, ActiveLow, Shared) { 10, 11 } })
            Method (_CRS, 0) { Return (CRSR (\_SB.PCI0.LPC.PRQC)) }
            Method (_SRS, 1) { \_SB.PCI0.LPC.PRQC = SRSN (Arg0) }
            Method (_DIS, 0) { \_SB.PCI0.LPC.PRQC |= 0x80 }
        }
        Device (LNKD)
        {
            Name (_HID, EisaId ("PNP0C0F"))
            Name (_UID, 4)
            Name (_PRS, ResourceTemplate () { IRQ (Level, ActiveLow, Shared) { 10, 11 } })
            Method (_CRS, 0) { Return (CRSR (\_SB.PCI0.LPC.PRQD)) }
            Method (_SRS, 1) { \_SB.PCI0.LPC.PRQD = SRSN (Arg0) }
            Method (_DIS, 0) { \_SB.PCI0.LPC.PRQD |= 0x80 }
        }
        Device (LNKE)
        {
            Name (_HID, EisaId ("PNP0C0F"))
            Name (_UID, 5)
            Name (_PRS, ResourceTemplate () { IRQ (Level, ActiveLow, Shared) { 5, 10, 11 } })
            Method (_CRS, 0) { Return (CRSR (\_SB.PCI0.LPC.PRQE)) }
            Method (_SRS, 1) { \_SB.PCI0.LPC.PRQE = SRSN (Arg0) }
            Method (_DIS, 0) { \_SB.PCI0.LPC.PRQE |= 0x80 }
        }
        Device (LNKF)
        {
            Name (_HID, EisaId ("PNP0C0F"))
            Name (_UID, 6)
            Name (_PRS, ResourceTemplate () { IRQ (Level, ActiveLow, Shared) { 5, 10, 11 } })
            Method (_CRS, 0) { Return (CRSR (\_SB.PCI0.LPC.PRQF)) }
            Method (_SRS, 1) { \_SB.PCI0.LPC.PRQF = SRSN (Arg0) }
            Method (_DIS, 0) { \_SB.PCI0.LPC.PRQF |= 0x80 }
        }
        Device (LNKG)
        {
            Name (_HID, EisaId ("PNP0C0F"))
            Name (_UID, 7)
            Name (_PRS, ResourceTemplate () { IRQ (Level, ActiveLow, Shared) { 5, 10, 11 } })
            Method (_CRS, 0) { Return (CRSR (\_SB.PCI0.LPC.PRQG)) }
            Method (_SRS, 1) { \_SB.PCI0.LPC.PRQG = SRSN (Arg0) }
            Method (_DIS, 0) { \_SB.PCI0.LPC.PRQG |= 0x80 }
        }
        Device (LNKH)
        {
            Name (_HID, EisaId ("PNP0C0F"))
            Name (_UID, 8)
            Name (_PRS, ResourceTemplate () { IRQ (Level, ActiveLow, Shared) { 5, 10, 11 } })
            Method (_CRS, 0) { Return (CRSR (\_SB.PCI0.LPC.PRQH)) }
            Method (_SRS, 1) { \_SB.PCI0.LPC.PRQH = SRSN (Arg0) }
            Method (_DIS, 0) { \_SB.PCI0.LPC.PRQH |= 0x80 }
        }
    }
}
