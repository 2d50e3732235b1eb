// Has one call to the system fail of a program before which it is loaded: the Nth of those below, counted from 1, where FAILED_CALL
// is N. Where SHORT_CALL is N, the Nth read or write of several bytes moves one byte instead. It writes to the handle CALL_TOLD which
// call that was, and to which handle or file. What makes a file longer finds the disk full, what makes a handle finds none left, a
// connection is reset, and all else finds an error of the disk.
#define _GNU_SOURCE
#include <dirent.h>
#include <dlfcn.h>
#include <errno.h>
#include <fcntl.h>
#include <stdarg.h>
#include <stdatomic.h>
#include <stdio.h>
#include <stdlib.h>
#include <string.h>
#include <sys/socket.h>
#include <sys/stat.h>
#include <unistd.h>

// How many calls are left until one fails or is short; 0 and less where none is.
static atomic_long fails = -1, shorts = -1;
static int told = -1;

static long number_in(const char *name) {
    const char *text = getenv(name);
    return text ? atol(text) : -1;
}

__attribute__((constructor)) static void begin(void) {
    told = (int)number_in("CALL_TOLD");
    atomic_store(&fails, number_in("FAILED_CALL"));
    atomic_store(&shorts, number_in("SHORT_CALL"));
}

static void *next(const char *name) {
    void *found = dlsym(RTLD_NEXT, name);
    if (!found)
        abort();
    return found;
}
#define NEXT(name) ((__typeof__(&name))next(#name))

static int is_last(atomic_long *left) {
    return atomic_load(left) > 0 && atomic_fetch_sub(left, 1) == 1;
}

// Tells of the call: its name, and the path, or where there is none that of the handle, or its number for the first three.
static void tell(const char *name, int handle, const char *path) {
    char link[64], text[4200], found[4096];
    if (path && *path)
        snprintf(found, sizeof found, "%s", path);
    else if (handle < 3)
        snprintf(found, sizeof found, "%d", handle);
    else {
        snprintf(link, sizeof link, "/proc/self/fd/%d", handle);
        ssize_t length = readlink(link, found, sizeof found - 1);
        found[length < 0 ? 0 : length] = 0;
    }
    int length = snprintf(text, sizeof text, "%s %s\n", name, found);
    if (told >= 0 && NEXT(write)(told, text, (size_t)length) != length)
        abort();
}

static int has_failed(const char *name, int handle, const char *path, int error) {
    if (!is_last(&fails))
        return 0;
    tell(name, handle, path);
    errno = error;
    return 1;
}

static size_t moved(const char *name, int handle, size_t count) {
    if (count < 2 || !is_last(&shorts))
        return count;
    tell(name, handle, NULL);
    return 1;
}

ssize_t read(int handle, void *into, size_t count) {
    return has_failed("read", handle, NULL, EIO) ? -1 : NEXT(read)(handle, into, moved("read", handle, count));
}

ssize_t pread(int handle, void *into, size_t count, off_t at) {
    return has_failed("pread", handle, NULL, EIO) ? -1 : NEXT(pread)(handle, into, moved("pread", handle, count), at);
}

ssize_t write(int handle, const void *from, size_t count) {
    return has_failed("write", handle, NULL, ENOSPC) ? -1 : NEXT(write)(handle, from, moved("write", handle, count));
}

ssize_t pwrite(int handle, const void *from, size_t count, off_t at) {
    return has_failed("pwrite", handle, NULL, ENOSPC) ? -1 : NEXT(pwrite)(handle, from, moved("pwrite", handle, count), at);
}

int open(const char *path, int flags, ...) {
    va_list more;
    va_start(more, flags);
    mode_t mode = flags & O_CREAT ? va_arg(more, mode_t) : 0;
    va_end(more);
    return has_failed("open", -1, path, flags & O_CREAT ? ENOSPC : EIO) ? -1 : NEXT(open)(path, flags, mode);
}

int openat(int folder, const char *path, int flags, ...) {
    va_list more;
    va_start(more, flags);
    mode_t mode = flags & O_CREAT ? va_arg(more, mode_t) : 0;
    va_end(more);
    return has_failed("openat", folder, path, flags & O_CREAT ? ENOSPC : EIO) ? -1 : NEXT(openat)(folder, path, flags, mode);
}

int statx(int folder, const char *restrict path, int flags, unsigned mask, struct statx *restrict into) {
    return has_failed("statx", folder, path, EIO) ? -1 : NEXT(statx)(folder, path, flags, mask, into);
}

ssize_t getdents64(int handle, void *into, size_t count) {
    return has_failed("getdents64", handle, NULL, EIO) ? -1 : NEXT(getdents64)(handle, into, count);
}

int mkdir(const char *path, mode_t mode) {
    return has_failed("mkdir", -1, path, ENOSPC) ? -1 : NEXT(mkdir)(path, mode);
}

int unlink(const char *path) {
    return has_failed("unlink", -1, path, EIO) ? -1 : NEXT(unlink)(path);
}

int rename(const char *from, const char *to) {
    return has_failed("rename", -1, to, ENOSPC) ? -1 : NEXT(rename)(from, to);
}

int ftruncate(int handle, off_t length) {
    return has_failed("ftruncate", handle, NULL, ENOSPC) ? -1 : NEXT(ftruncate)(handle, length);
}

int fsync(int handle) {
    return has_failed("fsync", handle, NULL, EIO) ? -1 : NEXT(fsync)(handle);
}

int fdatasync(int handle) {
    return has_failed("fdatasync", handle, NULL, EIO) ? -1 : NEXT(fdatasync)(handle);
}

int socket(int domain, int type, int protocol) {
    return has_failed("socket", -1, "socket", EMFILE) ? -1 : NEXT(socket)(domain, type, protocol);
}

int setsockopt(int handle, int level, int option, const void *value, socklen_t length) {
    return has_failed("setsockopt", handle, NULL, EIO) ? -1 : NEXT(setsockopt)(handle, level, option, value, length);
}

int bind(int handle, const struct sockaddr *address, socklen_t length) {
    return has_failed("bind", handle, NULL, EADDRINUSE) ? -1 : NEXT(bind)(handle, address, length);
}

int listen(int handle, int most) {
    return has_failed("listen", handle, NULL, EADDRINUSE) ? -1 : NEXT(listen)(handle, most);
}

int accept4(int handle, struct sockaddr *restrict address, socklen_t *restrict length, int flags) {
    return has_failed("accept4", handle, NULL, EMFILE) ? -1 : NEXT(accept4)(handle, address, length, flags);
}

int fcntl(int handle, int command, ...) {
    va_list more;
    va_start(more, command);
    void *given = va_arg(more, void *);
    va_end(more);
    int makes = command == F_DUPFD || command == F_DUPFD_CLOEXEC;
    return makes && has_failed("fcntl", handle, NULL, EMFILE) ? -1 : NEXT(fcntl)(handle, command, given);
}

ssize_t recv(int handle, void *into, size_t count, int flags) {
    return has_failed("recv", handle, NULL, ECONNRESET) ? -1 : NEXT(recv)(handle, into, moved("recv", handle, count), flags);
}

ssize_t send(int handle, const void *from, size_t count, int flags) {
    return has_failed("send", handle, NULL, ECONNRESET) ? -1 : NEXT(send)(handle, from, moved("send", handle, count), flags);
}
