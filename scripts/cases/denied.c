/* Preloaded before a program, it denies the program all memory while a file lies at the path that DENIED names. What
 * the C library takes for its own ends is none of the program's. */
#define _GNU_SOURCE
#include <dlfcn.h>
#include <stdlib.h>
#include <sys/auxv.h>
#include <unistd.h>

void *__libc_malloc(size_t size);
void *__libc_realloc(void *block, size_t size);

static int is_of_the_program(const void *caller) {
    Dl_info here, program;
    return dladdr(caller, &here) && dladdr((const void *)getauxval(AT_ENTRY), &program)
        && here.dli_fbase == program.dli_fbase;
}

static int is_denied(const void *caller) {
    const char *path = getenv("DENIED");
    return path != NULL && access(path, F_OK) == 0 && is_of_the_program(caller);
}

void *malloc(size_t size) {
    return is_denied(__builtin_return_address(0)) ? NULL : __libc_malloc(size);
}

void *realloc(void *block, size_t size) {
    return is_denied(__builtin_return_address(0)) ? NULL : __libc_realloc(block, size);
}
