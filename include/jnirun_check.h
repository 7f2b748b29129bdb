/*
 * The check of native methods, for virtual machines and tools: a static library with one function.
 *
 * `gate/install` puts it into a folder, where a program is linked with it alone; `gate/embed` shows how it is built and
 * linked. The library calls the malloc, realloc and free of the program that it is linked with. These come from one
 * allocator, and a block is aligned to each power of two up to 16 that divides its size.
 */
#ifndef JNIRUN_CHECK_H
#define JNIRUN_CHECK_H

#include <stddef.h>
#include <stdint.h>

#ifdef __cplusplus
extern "C" {
#endif

/* Why a text is refused. docs/FAULTS.md has each number, with its rule and the fix. */
struct jnirun_fault {
    uint32_t number;
    size_t line; /* counted from 1; 0 where the fault has no line (51) */
};

enum {
    JNIRUN_ACCEPTED = 0, /* the text is that of an accepted program */
    JNIRUN_REFUSED = 1,  /* it isn't, and *fault tells why */
    JNIRUN_MEMORY = 3    /* memory was refused */
};

/*
 * Checks the text of native methods, the `length` bytes at `text`, as `jnirun check` does. `text` points to a byte also where
 * `length` is 0, and `fault` to a struct. The text is only read, and nothing of it is kept. Both members of *fault are 0 unless
 * the answer is JNIRUN_REFUSED. Don't call this from a signal handler, nor from the forked child of a process with threads.
 */
int32_t jnirun_check(const uint8_t *text, size_t length, struct jnirun_fault *fault);

#ifdef __cplusplus
}
#endif

#endif
