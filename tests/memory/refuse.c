/*
 * Refuses one allocation of a program, for `run` beside it: loaded before the C library, it counts the allocations that
 * the program's own code asks for, and answers none to the one whose number is in REFUSE_AT. At the end it writes how many
 * it has counted to the file that REFUSE_COUNT names. Those that libraries ask for are neither counted nor refused.
 */
#define _GNU_SOURCE
#include <dlfcn.h>
#include <errno.h>
#include <link.h>
#include <stdatomic.h>
#include <stdint.h>
#include <stdio.h>
#include <stdlib.h>
#include <sys/syscall.h>
#include <unistd.h>

static atomic_long counted;
static long refused_at;
static uintptr_t first_byte, last_byte;

static void *(*next_malloc)(size_t);
static void *(*next_calloc)(size_t, size_t);
static void *(*next_realloc)(void *, size_t);
static void *(*next_aligned)(size_t, size_t);

/* The first object is the program itself: where its code lies. */
static int note_program(struct dl_phdr_info *info, size_t size, void *data)
{
    (void)size;
    (void)data;
    for (int i = 0; i < info->dlpi_phnum; i++) {
        const ElfW(Phdr) *part = &info->dlpi_phdr[i];
        if (part->p_type == PT_LOAD && (part->p_flags & PF_X)) {
            first_byte = info->dlpi_addr + part->p_vaddr;
            last_byte = first_byte + part->p_memsz;
        }
    }
    return 1;
}

static void write_count(void)
{
    const char *name = getenv("REFUSE_COUNT");
    FILE *file = name ? fopen(name, "w") : NULL;
    if (file) {
        fprintf(file, "%ld\n", atomic_load(&counted));
        fclose(file);
    }
}

/* A program that has threads ends here, and not by exit. */
void _exit(int status)
{
    write_count();
    for (;;)
        syscall(SYS_exit_group, status);
}

__attribute__((constructor)) static void begin(void)
{
    const char *at = getenv("REFUSE_AT");
    next_malloc = dlsym(RTLD_NEXT, "malloc");
    next_calloc = dlsym(RTLD_NEXT, "calloc");
    next_realloc = dlsym(RTLD_NEXT, "realloc");
    next_aligned = dlsym(RTLD_NEXT, "aligned_alloc");
    refused_at = at ? atol(at) : 0;
    dl_iterate_phdr(note_program, NULL);
    atexit(write_count);
}

static int refuses(void *caller)
{
    uintptr_t from = (uintptr_t)caller;
    if (from < first_byte || from >= last_byte)
        return 0;
    if (atomic_fetch_add(&counted, 1) + 1 != refused_at)
        return 0;
    errno = ENOMEM;
    return 1;
}

void *malloc(size_t size)
{
    if (!next_malloc)
        next_malloc = dlsym(RTLD_NEXT, "malloc");
    return refuses(__builtin_return_address(0)) ? NULL : next_malloc(size);
}

void *calloc(size_t count, size_t size)
{
    /* dlsym itself asks for memory before there is a next one */
    static char early[4096];
    static size_t used;
    if (!next_calloc) {
        size_t wanted = (count * size + 15) & ~(size_t)15;
        if (used + wanted > sizeof early)
            return NULL;
        used += wanted;
        return early + used - wanted;
    }
    return refuses(__builtin_return_address(0)) ? NULL : next_calloc(count, size);
}

void *realloc(void *old, size_t size)
{
    return refuses(__builtin_return_address(0)) ? NULL : next_realloc(old, size);
}

void *aligned_alloc(size_t alignment, size_t size)
{
    return refuses(__builtin_return_address(0)) ? NULL : next_aligned(alignment, size);
}

int posix_memalign(void **result, size_t alignment, size_t size)
{
    if (refuses(__builtin_return_address(0)))
        return ENOMEM;
    *result = next_aligned(alignment, (size + alignment - 1) / alignment * alignment);
    return *result ? 0 : ENOMEM;
}
