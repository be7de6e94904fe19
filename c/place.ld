/* Where the loops of the machine and of cells lie in the archive, as ./libmkdemux makes it: so many bytes into a line of 64 that neither the
   loop's head, which each instruction runs through, nor the end of a test lies in two lines. Where the head does, each instruction
   costs a cycle more. The loop of cells takes a third longer where its jumps lie across a multiple of 32 bytes. No byte of the code
   changes. */
SECTIONS
{
  .text.mkdemux_verdict 0 : { . = . + 48; *(.text.mkdemux_verdict) }
  .text.mkdemux_cells_verdict 0 : { . = . + 16; *(.text.mkdemux_cells_verdict) }
  .text.mkdemux_run 0 : { . = . + 16; *(.text.mkdemux_run) }
}
