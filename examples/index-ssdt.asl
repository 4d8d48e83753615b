// A second PCI root bridge, in a table of its own. Pin A of its device 0 leads to a link of the DSDT, pin B is wired to interrupt 24.
DefinitionBlock ("index-ssdt.aml", "SSDT", 2, "ACPIRT", "PCI1", 1)
{
    External (\_SB.LNKA, DeviceObj)

    Device (\_SB.PCI1)
    {
        Name (_HID, EisaId ("PNP0A08"))
        Name (_BBN, 0x40)
        Name (_PRT, Package ()
        {
            Package (4) { 0x0000FFFF, 0, \_SB.LNKA, 0 },
            Package (4) { 0x0000FFFF, 1, 0, 24 }
        })
    }
}
