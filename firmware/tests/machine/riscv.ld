/* qemu's machine virt has its memory here. */
ENTRY(first)
MEMORY {
    rom (rx) : ORIGIN = 0x80000000, LENGTH = 256K
    ram (rw) : ORIGIN = 0x80100000, LENGTH = 16K
}
INCLUDE sections.ld
