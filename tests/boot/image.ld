/* The image stands at 1 MiB; it counts as in use up to image_end, page tables and stack too. */
ENTRY(start)

PHDRS
{
    code PT_LOAD FLAGS(5);
    constants PT_LOAD FLAGS(4);
    data PT_LOAD FLAGS(6);
    note PT_NOTE FLAGS(4);
}

SECTIONS
{
    . = 0x100000;
    image_start = .;
    .text : { *(.text.start) *(.text .text.*) } :code
    . = ALIGN(4096);
    .note.pvh : { *(.note.pvh) } :constants :note
    .rodata : { *(.rodata .rodata.*) } :constants
    . = ALIGN(4096);
    .data : { *(.data .data.*) } :data
    .bss : { *(.bss .bss.*) *(COMMON) } :data
    . = ALIGN(4096);
    image_end = .;
    /DISCARD/ : { *(.comment) *(.note.*) *(.eh_frame) *(.llvm*) }
}
