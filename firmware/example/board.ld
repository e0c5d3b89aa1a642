/* The memory of the machine mps2-an385. A real chip has other numbers here: its flash, its RAM, and for `settings` the pages of flash or the EEPROM
   that the firmware may write. The start-up code and settings.c use the names at the ends of the lines below. */
MEMORY {
    flash (rx) : ORIGIN = 0x00000000, LENGTH = 256K
    ram (rw) : ORIGIN = 0x20000000, LENGTH = 8K
    settings (rw) : ORIGIN = 0x21000000, LENGTH = 4K
}
ENTRY(start)
SECTIONS {
    .text : { KEEP(*(.vectors)) *(.text*) *(.rodata*) . = ALIGN(4); } > flash
    .ARM.exidx : { *(.ARM.exidx*) } > flash
    .data : { data_start = .; *(.data*) . = ALIGN(4); data_end = .; } > ram AT > flash
    data_load = LOADADDR(.data);
    .bss (NOLOAD) : { bss_start = .; *(.bss*) *(COMMON) . = ALIGN(8); bss_end = .; } > ram
    /* The stack has what is left, and grows down from here. */
    stack_top = ORIGIN(ram) + LENGTH(ram);
    ASSERT(stack_top - bss_end >= 2048, "there is not enough RAM left for the stack")
    .settings (NOLOAD) : { settings_pages = .; . = . + LENGTH(settings); } > settings
    /DISCARD/ : { *(.eh_frame*) }
}
