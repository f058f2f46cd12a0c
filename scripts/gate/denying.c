/* Preloaded before a program, it denies the program one growth of memory: the one whose number, from
 * 1 on, DENIED_GROWTH has. Counted are the calls that the program makes itself, since what the C
 * library takes for its own ends is none of the program's. It says on standard error that it denied.
 */
#define _GNU_SOURCE
#include <dlfcn.h>
#include <stdatomic.h>
#include <stdlib.h>
#include <string.h>
#include <sys/auxv.h>
#include <unistd.h>

void *__libc_malloc(size_t size);
void *__libc_realloc(void *block, size_t size);

static atomic_ulong growths;

static int is_of_the_program(const void *caller) {
    Dl_info here, program;
    return dladdr(caller, &here) && dladdr((const void *)getauxval(AT_ENTRY), &program)
        && here.dli_fbase == program.dli_fbase;
}

static int is_denied(const void *caller) {
    static const char told[] = "a growth was denied\n";
    const char *number = getenv("DENIED_GROWTH");
    if (number == NULL || !is_of_the_program(caller)
        || atomic_fetch_add(&growths, 1) + 1 != strtoul(number, NULL, 10))
        return 0;
    (void)!write(STDERR_FILENO, told, sizeof told - 1);
    return 1;
}

void *malloc(size_t size) {
    return is_denied(__builtin_return_address(0)) ? NULL : __libc_malloc(size);
}

void *realloc(void *block, size_t size) {
    return is_denied(__builtin_return_address(0)) ? NULL : __libc_realloc(block, size);
}
