/* The layout of a program for wedge: one load that is executed, with the text and the constants, and one that is
 * written, with the data. There is no global pointer, so nothing is relaxed against one. */
ENTRY(main)

PHDRS
{
    text PT_LOAD FLAGS(5); /* read and execute */
    data PT_LOAD FLAGS(6); /* read and write */
}

SECTIONS
{
    . = 0x10000;
    .text : ALIGN(4)
    {
        *(.text .text.*)
        *(.rodata .rodata.* .srodata .srodata.*)
        . = ALIGN(4);
    } :text
    .data : ALIGN(16)
    {
        *(.data .data.* .sdata .sdata.*)
        . = ALIGN(4);
    } :data
    .bss : ALIGN(4)
    {
        *(.bss .bss.* .sbss .sbss.* COMMON)
        . = ALIGN(4);
    } :data
    /DISCARD/ : { *(.comment) *(.eh_frame) *(.riscv.attributes) *(.note .note.*) }
}
