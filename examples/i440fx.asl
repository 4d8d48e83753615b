// A machine like an i440FX chipset: its PIIX3 bridge routes four interrupt lines by the registers 0x60 to 0x63 of its
// configuration space. Bit 7 of a register is set where its line is routed nowhere.
DefinitionBlock ("i440fx.aml", "DSDT", 2, "ACPIRT", "I440FX", 1)
{
    Scope (\_SB)
    {
        Device (PCI0)
        {
            Name (_HID, EisaId ("PNP0A03"))
            Name (_ADR, Zero)

            // Four slots of four pins. The pins of each slot begin one line further than those of the slot before.
            Method (_PRT, 0, Serialized)
            {
                Name (PINS, Package (16) {})
                Local0 = Zero
                While (Local0 < 16)
                {
                    Local1 = Local0 >> 2
                    Local2 = (Local0 + Local1) & 3
                    If (Local2 == 0)
                    {
                        Local3 = Package (4) { Zero, Zero, LNKA, Zero }
                    }
                    ElseIf (Local2 == 1)
                    {
                        Local3 = Package (4) { Zero, Zero, LNKB, Zero }
                    }
                    ElseIf (Local2 == 2)
                    {
                        Local3 = Package (4) { Zero, Zero, LNKC, Zero }
                    }
                    Else
                    {
                        Local3 = Package (4) { Zero, Zero, LNKD, Zero }
                    }
                    Local3[0] = ((Local1 + 2) << 16) | 0xFFFF
                    Local3[1] = Local0 & 3
                    PINS[Local0] = Local3
                    Local0++
                }
                Return (PINS)
            }

            Device (ISA)
            {
                Name (_ADR, 0x00010000)
                OperationRegion (P40C, PCI_Config, 0x60, 0x04)
            }
        }

        Field (PCI0.ISA.P40C, ByteAcc, NoLock, Preserve)
        {
            PRQ0, 8,
            PRQ1, 8,
            PRQ2, 8,
            PRQ3, 8
        }

        // Present, and disabled where bit 7 is set.
        Method (IQST, 1)
        {
            If (0x80 & Arg0)
            {
                Return (0x09)
            }
            Return (0x0B)
        }

        // The current setting: no interrupt (0) where bit 7 is set.
        Method (IQCR, 1, Serialized)
        {
            Name (PRR0, ResourceTemplate ()
            {
                Interrupt (, Level, ActiveHigh, Shared, ,, ) { 0 }
            })
            CreateDWordField (PRR0, 0x05, PRRI)
            If (Arg0 < 0x80)
            {
                PRRI = Arg0
            }
            Return (PRR0)
        }

        Device (LNKA)
        {
            Name (_HID, EisaId ("PNP0C0F"))
            Name (_UID, 0)
            Name (_PRS, ResourceTemplate () { Interrupt (, Level, ActiveHigh, Shared, ,, ) { 5, 10, 11 } })
            Method (_STA, 0) { Return (IQST (PRQ0)) }
            Method (_DIS, 0) { PRQ0 |= 0x80 }
            Method (_CRS, 0) { Return (IQCR (PRQ0)) }
            Method (_SRS, 1)
            {
                CreateDWordField (Arg0, 0x05, PRRI)
                PRQ0 = PRRI
            }
        }
        Device (LNKB)
        {
            Name (_HID, EisaId ("PNP0C0F"))
            Name (_UID, 1)
            Name (_PRS, ResourceTemplate () { Interrupt (, Level, ActiveHigh, Shared, ,, ) { 5, 10, 11 } })
            Method (_STA, 0) { Return (IQST (PRQ1)) }
            Method (_DIS, 0) { PRQ1 |= 0x80 }
            Method (_CRS, 0) { Return (IQCR (PRQ1)) }
            Method (_SRS, 1)
            {
                CreateDWordField (Arg0, 0x05, PRRI)
                PRQ1 = PRRI
            }
        }
        Device (LNKC)
        {
            Name (_HID, EisaId ("PNP0C0F"))
            Name (_UID, 2)
            Name (_PRS, ResourceTemplate () { Interrupt (, Level, ActiveHigh, Shared, ,, ) { 5, 10, 11 } })
            Method (_STA, 0) { Return (IQST (PRQ2)) }
            Method (_DIS, 0) { PRQ2 |= 0x80 }
            Method (_CRS, 0) { Return (IQCR (PRQ2)) }
            Method (_SRS, 1)
            {
                CreateDWordField (Arg0, 0x05, PRRI)
                PRQ2 = PRRI
            }
        }
        Device (LNKD)
        {
            Name (_HID, EisaId ("PNP0C0F"))
            Name (_UID, 3)
            Name (_PRS, ResourceTemplate () { Interrupt (, Level, ActiveHigh, Shared, ,, ) { 5, 10, 11 } })
            Method (_STA, 0) { Return (IQST (PRQ3)) }
            Method (_DIS, 0) { PRQ3 |= 0x80 }
            Method (_CRS, 0) { Return (IQCR (PRQ3)) }
            Method (_SRS, 1)
            {
                CreateDWordField (Arg0, 0x05, PRRI)
                PRQ3 = PRRI
            }
        }
    }
}
