/* Both of qemu's Arm machines have this much: microbit (Cortex-M0) has no more. */
ENTRY(start)
MEMORY {
    rom (rx) : ORIGIN = 0x00000000, LENGTH = 256K
    ram (rw) : ORIGIN = 0x20000000, LENGTH = 16K
}
INCLUDE sections.ld
