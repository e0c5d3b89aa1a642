SECTIONS {
    .text : { KEEP(*(.vectors)) *(.text*) *(.rodata*) *(.srodata*) . = ALIGN(8); } > rom
    .ARM.exidx : { *(.ARM.exidx*) } > rom
    .data : { data_start = .; *(.data*) *(.sdata*) . = ALIGN(4); data_end = .; } > ram AT > rom
    data_load = LOADADDR(.data);
    .bss (NOLOAD) : { bss_start = .; *(.bss*) *(.sbss*) *(COMMON) . = ALIGN(4); bss_end = .; } > ram
    stack_top = ORIGIN(ram) + LENGTH(ram);
    /DISCARD/ : { *(.eh_frame*) *(.comment*) }
}
