/* One segment from the first byte of memory: code, constants, data, and what begins as zero. Its first instruction is _start. A process may
   write all of its memory, whatever the flags of the segment say; with those of writing too, the linker would warn. */
ENTRY(_start)
PHDRS { image PT_LOAD FLAGS(5); }
SECTIONS
{
  . = 0x10000;
  .text : { *(.init) *(.text .text.*) } :image
  .rodata : { *(.rodata .rodata.* .srodata .srodata.*) } :image
  .data : { *(.data .data.*) __global_pointer$ = . + 0x800; *(.sdata .sdata.*) } :image
  .bss : { *(.sbss .sbss.*) *(.bss .bss.* COMMON) } :image
  . = ALIGN(16);
  ASSERT(. + STACK <= 0x10000 + 256 * PAGES, "the program and its stack do not fit the pages")
  /DISCARD/ : { *(.comment) *(.note*) *(.eh_frame*) *(.riscv.attributes) }
}
