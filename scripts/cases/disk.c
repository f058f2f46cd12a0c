/* Preloaded before a program, it stands before the calls that open files, lock them, write to them and have the disk
 * keep them. Each call that has the disk keep one is told as a line in the file that DISK_TOLD names. Where a file lies
 * at the path that one of these names, there is
 *
 *     DISK_BUSY    no end of such a call, until that is gone
 *     DISK_BROKEN  none that succeeds (EIO)
 *     DISK_LOOSE   none of a folder that succeeds (EIO)
 *     DISK_FULL    room for half of what is written to a plain file, and for no single octet (ENOSPC)
 *     DISK_HUNG    no end of an open of a file whose name ends in .toml, until that is gone
 *     DISK_OPEN    no file that can be locked (ENOLCK)
 */
#include <errno.h>
#include <fcntl.h>
#include <stdarg.h>
#include <stdlib.h>
#include <string.h>
#include <sys/file.h>
#include <sys/stat.h>
#include <sys/syscall.h>
#include <unistd.h>

enum { PAUSE_US = 2000 };

static int is_so(const char *name) {
    const char *path = getenv(name);
    return path != NULL && access(path, F_OK) == 0;
}

// ---- what opens one

static int open_by(int folder, const char *path, int flags, mode_t mode) {
    size_t length = strlen(path);
    while (length > 5 && strcmp(path + length - 5, ".toml") == 0 && is_so("DISK_HUNG"))
        usleep(PAUSE_US);
    return (int)syscall(SYS_openat, folder, path, flags, mode);
}

static mode_t mode_of(int flags, va_list rest) {
    return flags & O_CREAT ? va_arg(rest, mode_t) : 0;
}

int open(const char *path, int flags, ...) {
    va_list rest;
    va_start(rest, flags);
    mode_t mode = mode_of(flags, rest);
    va_end(rest);
    return open_by(AT_FDCWD, path, flags, mode);
}

int openat(int folder, const char *path, int flags, ...) {
    va_list rest;
    va_start(rest, flags);
    mode_t mode = mode_of(flags, rest);
    va_end(rest);
    return open_by(folder, path, flags, mode);
}

// ---- what has the disk keep a file

static void tell(const char *line) {
    const char *path = getenv("DISK_TOLD");
    int told = path == NULL ? -1 : open(path, O_WRONLY | O_APPEND | O_CREAT | O_CLOEXEC, 0600);
    if (told < 0)
        return;
    (void)!syscall(SYS_write, told, line, strlen(line));
    close(told);
}

static int is_folder(int file) {
    struct stat found;
    return fstat(file, &found) == 0 && S_ISDIR(found.st_mode);
}

static int sync_by(long call, const char *line, int file) {
    tell(line);
    while (is_so("DISK_BUSY"))
        usleep(PAUSE_US);
    if (is_so("DISK_BROKEN") || (is_so("DISK_LOOSE") && is_folder(file))) {
        errno = EIO;
        return -1;
    }
    return (int)syscall(call, file);
}

int fsync(int file) {
    return sync_by(SYS_fsync, "fsync\n", file);
}

int fdatasync(int file) {
    return sync_by(SYS_fdatasync, "fdatasync\n", file);
}

// ---- what locks one

int flock(int file, int how) {
    if (is_so("DISK_OPEN")) {
        errno = ENOLCK;
        return -1;
    }
    return (int)syscall(SYS_flock, file, how);
}

// ---- what writes to one

static int is_on_the_disk(int file) {
    struct stat found;
    return file > STDERR_FILENO && fstat(file, &found) == 0 && S_ISREG(found.st_mode);
}

static size_t taken_of(int file, size_t count) {
    return is_so("DISK_FULL") && is_on_the_disk(file) ? count / 2 : count;
}

ssize_t write(int file, const void *octets, size_t count) {
    size_t taken = taken_of(file, count);
    if (taken == 0 && count > 0) {
        errno = ENOSPC;
        return -1;
    }
    return syscall(SYS_write, file, octets, taken);
}

ssize_t pwrite(int file, const void *octets, size_t count, off_t at) {
    size_t taken = taken_of(file, count);
    if (taken == 0 && count > 0) {
        errno = ENOSPC;
        return -1;
    }
    return syscall(SYS_pwrite64, file, octets, taken, at);
}

ssize_t pwrite64(int file, const void *octets, size_t count, off_t at) {
    return pwrite(file, octets, count, at);
}
