/* Code from 0 and data from 20000000; firmware that catches nothing needs no tables for unwinding. */
ENTRY(serve)
SECTIONS {
    . = 0;
    .text : { KEEP(*(.vectors)) *(.text*) *(.rodata*) }
    /DISCARD/ : { *(.ARM.exidx*) }
    . = 0x20000000;
    .bss : { *(.bss*) }
}
