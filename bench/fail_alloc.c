/* Lets one allocation of a program fail: the one whose number, from 1 on, FAIL_ALLOC is. Preloaded (LD_PRELOAD) by alloc_faults.py.
   Counted are malloc and realloc as called by the program itself, and not by the libraries that it is linked with. When the
   allocation fails, one byte is written to the file descriptor FAIL_ALLOC_FD, so that the caller sees that it was reached. */
#define _GNU_SOURCE
#include <errno.h>
#include <link.h>
#include <stdint.h>
#include <stdlib.h>
#include <unistd.h>

extern void *__libc_malloc(size_t size);
extern void *__libc_realloc(void *old, size_t size);

static uintptr_t first_address, past_address;
static long left = -1;
static int told = -1;

/* Where the program's code lies: it is the first of the loaded objects. */
static int find_program(struct dl_phdr_info *object, size_t size, void *data)
{
    (void)size;
    (void)data;
    for (int i = 0; i < object->dlpi_phnum; i++) {
        const ElfW(Phdr) *part = &object->dlpi_phdr[i];
        if (part->p_type == PT_LOAD && (part->p_flags & PF_X)) {
            first_address = object->dlpi_addr + part->p_vaddr;
            past_address = first_address + part->p_memsz;
        }
    }
    return 1;
}

__attribute__((constructor)) static void begin(void)
{
    const char *number = getenv("FAIL_ALLOC");
    const char *descriptor = getenv("FAIL_ALLOC_FD");
    dl_iterate_phdr(find_program, NULL);
    told = descriptor ? atoi(descriptor) : -1;
    left = number ? atol(number) : -1;
}

/* Whether this is the allocation that fails. */
static int fails(void *caller)
{
    uintptr_t address = (uintptr_t)caller;
    if (left <= 0 || address < first_address || past_address <= address || --left > 0)
        return 0;
    if (told >= 0 && write(told, "x", 1) != 1)
        abort();
    errno = ENOMEM;
    return 1;
}

void *malloc(size_t size)
{
    return fails(__builtin_return_address(0)) ? NULL : __libc_malloc(size);
}

void *realloc(void *old, size_t size)
{
    return fails(__builtin_return_address(0)) ? NULL : __libc_realloc(old, size);
}
