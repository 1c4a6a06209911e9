// Preloaded into the program by tools/faults: one of its calls fails, or its reads and writes move few bytes at a time.
//
// The environment says what happens:
//   FAULTS_CALL    allocation, read, write, open, or denied: an opening that fails for want of permission; folder: the opening of
//                  a folder; names: the reading of its names; look: a look at what is at a path; or sync, link, mkdir, unlink
//   FAULTS_NUMBER  which of these calls fails, counted from 1
//   FAULTS_REST    set: all after it fail too
//   FAULTS_PIECE   the most bytes that a read or a write moves
//   FAULTS_REPORT  a descriptor: a byte is written to it for each call that failed
#include <errno.h>
#include <fcntl.h>
#include <stdarg.h>
#include <stdlib.h>
#include <string.h>
#include <sys/syscall.h>
#include <unistd.h>

// The C library's own functions. They are not looked up, since looking up may ask for memory.
void *__libc_malloc(size_t size);
void *__libc_calloc(size_t count, size_t size);
void *__libc_realloc(void *block, size_t size);

static const char *failing = "";
static long left = 0;
static int fails_on = 0;
static size_t piece = 0;
static int report = -1;

static long number_of(const char *name, long otherwise) {
    const char *text = getenv(name);
    return text ? atol(text) : otherwise;
}

__attribute__((constructor)) static void read_environment(void) {
    const char *call = getenv("FAULTS_CALL");
    left = number_of("FAULTS_NUMBER", 0);
    fails_on = getenv("FAULTS_REST") != NULL;
    piece = (size_t)number_of("FAULTS_PIECE", 0);
    report = (int)number_of("FAULTS_REPORT", -1);
    failing = call ? call : "";
}

// Counts a call, and says whether it fails.
static int fails(const char *call, int error) {
    if (strcmp(failing, call) != 0 || left == 0)
        return 0;
    if (--left > 0)
        return 0;
    left = fails_on;
    syscall(SYS_write, report, ".", 1);
    errno = error;
    return 1;
}

static size_t cut(size_t size) {
    return piece > 0 && size > piece ? piece : size;
}

void *malloc(size_t size) {
    return fails("allocation", ENOMEM) ? NULL : __libc_malloc(size);
}

void *calloc(size_t count, size_t size) {
    return fails("allocation", ENOMEM) ? NULL : __libc_calloc(count, size);
}

void *realloc(void *block, size_t size) {
    return fails("allocation", ENOMEM) ? NULL : __libc_realloc(block, size);
}

ssize_t read(int file, void *bytes, size_t size) {
    return fails("read", EIO) ? -1 : syscall(SYS_read, file, bytes, cut(size));
}

ssize_t write(int file, const void *bytes, size_t size) {
    return fails("write", ENOSPC) ? -1 : syscall(SYS_write, file, bytes, cut(size));
}

int open(const char *path, int flags, ...) {
    va_list rest;
    va_start(rest, flags);
    mode_t mode = flags & O_CREAT ? va_arg(rest, mode_t) : 0;
    va_end(rest);
    return fails("open", EMFILE) || fails("denied", EACCES) ? -1 : (int)syscall(SYS_openat, AT_FDCWD, path, flags, mode);
}

int openat(int folder, const char *path, int flags, ...) {
    return fails("folder", EACCES) ? -1 : (int)syscall(SYS_openat, folder, path, flags, 0);
}

ssize_t getdents64(int folder, void *names, size_t size) {
    return fails("names", EIO) ? -1 : syscall(SYS_getdents64, folder, names, size);
}

struct statx;

int statx(int folder, const char *path, int flags, unsigned int mask, struct statx *found) {
    return fails("look", EACCES) ? -1 : (int)syscall(SYS_statx, folder, path, flags, mask, found);
}

int fsync(int file) {
    return fails("sync", EIO) ? -1 : (int)syscall(SYS_fsync, file);
}

int link(const char *from, const char *to) {
    return fails("link", EPERM) ? -1 : (int)syscall(SYS_linkat, AT_FDCWD, from, AT_FDCWD, to, 0);
}

int mkdir(const char *path, mode_t mode) {
    return fails("mkdir", EACCES) ? -1 : (int)syscall(SYS_mkdirat, AT_FDCWD, path, mode);
}

int unlink(const char *path) {
    return fails("unlink", EBUSY) ? -1 : (int)syscall(SYS_unlinkat, AT_FDCWD, path, 0);
}
