/* Where the examples' programs stand, whichever compiler built them: constants, code and data each begin at an address of their
   own and fill whole pages, at least one where there may be none, and the entry comes first. In bss the objects of guest.h come first,
   and the others behind them by name, so that each has the same lines in every build. */

ENTRY(_start)

PHDRS
{
    constants PT_LOAD FLAGS(4);
    code PT_LOAD FLAGS(5);
    data PT_LOAD FLAGS(6);
}

SECTIONS
{
    . = 0x10000;
    .rodata : { *(.rodata .rodata.* .srodata .srodata.*) BYTE(0) . = ALIGN(4096); } :constants

    . = 0x11000;
    .text : { *(.text._start) *(.text .text.*) . = ALIGN(4096); } :code
    ASSERT(SIZEOF(.text) == 4096, "the code is more than a page")

    . = 0x12000;
    .data : { *(SORT(.data.*) .data SORT(.sdata.*) .sdata) . = ALIGN(4096); } :data
    .bss : {
        *(.bss.line_length) *(.bss.line)
        *(SORT(.bss.*) .bss SORT(.sbss.*) .sbss COMMON)
        . = . + 1;
        . = ALIGN(4096);
    } :data

    /DISCARD/ : { *(.eh_frame .eh_frame_hdr .comment .note .note.* .riscv.attributes .llvm_addrsig) }
}
