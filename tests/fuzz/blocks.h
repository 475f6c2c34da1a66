/* Coverage of the proved code, which no compiler here instruments: breakpoints on its basic blocks. */
#ifndef FUZZ_BLOCKS_H
#define FUZZ_BLOCKS_H

/* Sets a breakpoint on every block that the list names (the file in FUZZ_BLOCKS). Each is reported to the fuzzer when it is first hit, and
 * is gone then. Without the variable nothing is done. */
void blocks_watch(void);

/* Sets them all again where FUZZ_AGAIN is set, so that each input reports all of its blocks: for choosing a small corpus. */
void blocks_again(void);

#endif
