/* The code that is counted stands apart from the code that calls it. */
ENTRY(_start)
SECTIONS
{
    . = 0x400000;
    .counted : {
        counted_from = .;
        *ours.o(.text .text.*)
        *twin.o(.text .text.*)
        *memory.o(.text .text.*)
        counted_to = .;
    }
    .text : { *(.text .text.*) }
    . = ALIGN(4096);
    .rodata : { *(.rodata .rodata.*) }
    .eh_frame : { *(.eh_frame) }
    . = ALIGN(4096);
    .data : { *(.data .data.*) *(.got .got.*) }
    .bss : { *(.bss .bss.*) *(COMMON) }
}
