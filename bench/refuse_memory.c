/* A library to be preloaded, which refuses allocations of the program as if memory had run out. It needs the GNU C library.
 *
 * Only what the program's own code asks for is counted and refused, as the place tells that the call comes from. The loader
 * and the C library ask for memory too, before the program's first step, and where they get none they end the process.
 *
 * From the environment: REFUSE_FIRST and REFUSE_LAST are the numbers, from 1, of the first and the last allocation to be
 * refused; REFUSE_REPORT is the number of an open file, to which go at the end how many allocations the program asked for and
 * how many of these were refused. */
#define _GNU_SOURCE
#include <errno.h>
#include <link.h>
#include <stdatomic.h>
#include <stddef.h>
#include <stdint.h>
#include <stdio.h>
#include <stdlib.h>

extern void *__libc_malloc(size_t size);
extern void *__libc_calloc(size_t count, size_t size);
extern void *__libc_realloc(void *block, size_t size);
extern void *__libc_memalign(size_t alignment, size_t size);

/* Where the program's own code lies: nowhere, until `begin` has found it. */
static uintptr_t code_start, code_end;
static unsigned long first_refused, last_refused;
static atomic_ulong asked, refused;

/* Called for the program first, and by its answer for nothing else. */
static int find_code(struct dl_phdr_info *program, size_t size, void *unused)
{
    (void)size;
    (void)unused;
    for (int at = 0; at < program->dlpi_phnum; at++) {
        const ElfW(Phdr) *part = &program->dlpi_phdr[at];
        if (part->p_type == PT_LOAD && (part->p_flags & PF_X)) {
            uintptr_t start = program->dlpi_addr + part->p_vaddr;
            if (code_end == 0 || start < code_start)
                code_start = start;
            if (start + part->p_memsz > code_end)
                code_end = start + part->p_memsz;
        }
    }
    return 1;
}

static unsigned long number_of(const char *name)
{
    const char *text = getenv(name);
    return text ? strtoul(text, NULL, 10) : 0;
}

__attribute__((constructor)) static void begin(void)
{
    first_refused = number_of("REFUSE_FIRST");
    last_refused = number_of("REFUSE_LAST");
    dl_iterate_phdr(find_code, NULL);
}

__attribute__((destructor)) static void report(void)
{
    if (getenv("REFUSE_REPORT"))
        dprintf((int)number_of("REFUSE_REPORT"), "%lu %lu\n", asked, refused);
}

static int is_refused(void *caller)
{
    uintptr_t place = (uintptr_t)caller;
    if (place < code_start || place >= code_end)
        return 0;
    unsigned long number = ++asked;
    if (number < first_refused || number > last_refused)
        return 0;
    refused++;
    errno = ENOMEM;
    return 1;
}

void *malloc(size_t size)
{
    return is_refused(__builtin_return_address(0)) ? NULL : __libc_malloc(size);
}

void *calloc(size_t count, size_t size)
{
    return is_refused(__builtin_return_address(0)) ? NULL : __libc_calloc(count, size);
}

void *realloc(void *block, size_t size)
{
    return is_refused(__builtin_return_address(0)) ? NULL : __libc_realloc(block, size);
}

void *aligned_alloc(size_t alignment, size_t size)
{
    return is_refused(__builtin_return_address(0)) ? NULL : __libc_memalign(alignment, size);
}

void *memalign(size_t alignment, size_t size)
{
    return is_refused(__builtin_return_address(0)) ? NULL : __libc_memalign(alignment, size);
}

int posix_memalign(void **block, size_t alignment, size_t size)
{
    if (is_refused(__builtin_return_address(0)))
        return ENOMEM;
    void *found = __libc_memalign(alignment, size);
    if (!found)
        return ENOMEM;
    *block = found;
    return 0;
}
