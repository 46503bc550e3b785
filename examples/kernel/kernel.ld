/* boot.S lies at 1 MB, where multiboot loads it. The rest is loaded after it, and runs at 0xffffffff80000000
   more. */
ENTRY(start)
SECTIONS {
    . = 0x100000;
    .boot : { *(.boot) }
    . += 0xffffffff80000000;
    .text ALIGN(4096) : AT(ADDR(.text) - 0xffffffff80000000) { *(.text .text.*) }
    .rodata ALIGN(4096) : AT(ADDR(.rodata) - 0xffffffff80000000) { *(.rodata .rodata.*) }
    .data ALIGN(4096) : AT(ADDR(.data) - 0xffffffff80000000) { *(.data .data.* .got .got.*) }
    .bss ALIGN(4096) : AT(ADDR(.bss) - 0xffffffff80000000) { *(.bss .bss.* COMMON) }
    kernel_end = .;
    /DISCARD/ : { *(.comment .note.* .eh_frame) }
}
