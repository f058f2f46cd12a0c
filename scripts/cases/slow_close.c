/* Preloaded before a program, it stands before the call that closes files: to close a connection takes two seconds,
 * while a file lies at the path that SLOW_CLOSE names. */
#include <stdlib.h>
#include <sys/socket.h>
#include <sys/syscall.h>
#include <unistd.h>

enum { SLOW_US = 2000000 };

static int is_connection(int file) {
    struct sockaddr_storage other;
    socklen_t length = sizeof other;
    return getpeername(file, (struct sockaddr *)&other, &length) == 0;
}

int close(int file) {
    const char *path = getenv("SLOW_CLOSE");
    if (path != NULL && access(path, F_OK) == 0 && is_connection(file))
        usleep(SLOW_US);
    return (int)syscall(SYS_close, file);
}
