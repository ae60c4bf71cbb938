/* Preloaded into a program that is built here, refuses one of its requests for memory: the one of the number
   REFUSE_AT, none where that is 0 or not set. Requests of the C library's own don't count. At its end the program
   writes to the file REFUSE_COUNT how many requests it made. ./sweep builds it by `cc` and uses it.

       cc -O1 -shared -fPIC -o refuse.so tools/refuse/refuse.c -ldl
       REFUSE_AT=3 REFUSE_COUNT=count LD_PRELOAD=./refuse.so crates/bpaf_demo/out/bpaf_demo -n 3 */
#define _GNU_SOURCE
#include <dlfcn.h>
#include <errno.h>
#include <link.h>
#include <stdint.h>
#include <stdio.h>
#include <stdlib.h>

/* Where the code of the program itself lies. */
static uintptr_t code_start, code_end;
static unsigned long refused_number, requests;

/* Notes the code of the first object, which is the program, and looks at no other. */
static int note_code(struct dl_phdr_info *object, size_t size, void *unused) {
    (void)size;
    (void)unused;
    for (int part = 0; part < object->dlpi_phnum; part++) {
        const ElfW(Phdr) *header = &object->dlpi_phdr[part];
        if (header->p_type == PT_LOAD && (header->p_flags & PF_X) != 0) {
            code_start = object->dlpi_addr + header->p_vaddr;
            code_end = code_start + header->p_memsz;
        }
    }
    return 1;
}

__attribute__((constructor)) static void begin(void) {
    const char *number = getenv("REFUSE_AT");
    dl_iterate_phdr(note_code, NULL);
    refused_number = number == NULL ? 0 : strtoul(number, NULL, 10);
}

__attribute__((destructor)) static void tell_count(void) {
    const char *path = getenv("REFUSE_COUNT");
    FILE *file = path == NULL ? NULL : fopen(path, "w");
    if (file != NULL) {
        fprintf(file, "%lu\n", requests);
        fclose(file);
    }
}

/* Whether the request that this place of the code makes is the one that is refused. */
static int is_refused(void *place) {
    uintptr_t caller = (uintptr_t)place;
    if (caller < code_start || caller >= code_end) {
        return 0;
    }
    requests++;
    if (requests != refused_number) {
        return 0;
    }
    errno = ENOMEM;
    return 1;
}

#define IS_REFUSED() is_refused(__builtin_return_address(0))

/* The call of this name that the C library has. */
#define LIBRARY(name) ((__typeof__(&name))dlsym(RTLD_NEXT, #name))

void *malloc(size_t size) {
    static void *(*library)(size_t);
    if (library == NULL) {
        library = LIBRARY(malloc);
    }
    return IS_REFUSED() ? NULL : library(size);
}

void *realloc(void *old, size_t size) {
    static void *(*library)(void *, size_t);
    if (library == NULL) {
        library = LIBRARY(realloc);
    }
    return IS_REFUSED() ? NULL : library(old, size);
}

void *aligned_alloc(size_t alignment, size_t size) {
    static void *(*library)(size_t, size_t);
    if (library == NULL) {
        library = LIBRARY(aligned_alloc);
    }
    return IS_REFUSED() ? NULL : library(alignment, size);
}

int posix_memalign(void **made, size_t alignment, size_t size) {
    static int (*library)(void **, size_t, size_t);
    if (library == NULL) {
        library = LIBRARY(posix_memalign);
    }
    return IS_REFUSED() ? ENOMEM : library(made, alignment, size);
}
