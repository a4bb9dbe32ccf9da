/* Loaded before a program: notes what it asks of the files in the folder FILE_CALLS_UNDER, a line of the file FILE_CALLS_LOG each: the call,
   `ok` or `failed`, the file's name from that folder on (`.` is the folder itself), and where the bytes stand that were put, their offset and how many
   they are, or the file's new name, or how a file is opened: `r` or `w`, and then `c` where it may be made, `x` where it has to be, `t` where it is
   emptied. Before a put to a file `*.items`, or before one is cut, a line `lock held` or `lock free` says whether somebody has the lock of its
   folder. The names of what is made, renamed and taken away are seen where they are absolute, or in an open folder. The sync (fsync or fdatasync) of number FILE_CALLS_FAIL of these files, from 1, isn't made and fails. Built and used by the
   script file_calls beside this file. */
#define _GNU_SOURCE
#include <dlfcn.h>
#include <errno.h>
#include <fcntl.h>
#include <limits.h>
#include <stdatomic.h>
#include <stdio.h>
#include <stdlib.h>
#include <string.h>
#include <stdarg.h>
#include <sys/file.h>
#include <sys/stat.h>
#include <sys/syscall.h>
#include <unistd.h>

static const char *under;
static int log_fd = -1;
static long fail_at = -1;
static atomic_long syncs;

static ssize_t (*real_write)(int, const void *, size_t);
static ssize_t (*real_pwrite)(int, const void *, size_t, off_t);
static ssize_t (*real_pwrite64)(int, const void *, size_t, off64_t);
static int (*real_fsync)(int);
static int (*real_fdatasync)(int);
static int (*real_ftruncate)(int, off_t);
static int (*real_rename)(const char *, const char *);
static int (*real_mkdir)(const char *, mode_t);
static int (*real_rmdir)(const char *);
static int (*real_unlink)(const char *);
static int (*real_unlinkat)(int, const char *, int);

__attribute__((constructor)) static void start(void) {
    real_write = dlsym(RTLD_NEXT, "write");
    real_pwrite = dlsym(RTLD_NEXT, "pwrite");
    real_pwrite64 = dlsym(RTLD_NEXT, "pwrite64");
    real_fsync = dlsym(RTLD_NEXT, "fsync");
    real_fdatasync = dlsym(RTLD_NEXT, "fdatasync");
    real_ftruncate = dlsym(RTLD_NEXT, "ftruncate");
    real_rename = dlsym(RTLD_NEXT, "rename");
    real_mkdir = dlsym(RTLD_NEXT, "mkdir");
    real_rmdir = dlsym(RTLD_NEXT, "rmdir");
    real_unlink = dlsym(RTLD_NEXT, "unlink");
    real_unlinkat = dlsym(RTLD_NEXT, "unlinkat");
    const char *n = getenv("FILE_CALLS_FAIL");
    fail_at = n ? atol(n) : -1;
    const char *log = getenv("FILE_CALLS_LOG");
    log_fd = log ? (int)syscall(SYS_openat, AT_FDCWD, log, O_WRONLY | O_CREAT | O_APPEND | O_CLOEXEC, 0600) : -1;
    under = getenv("FILE_CALLS_UNDER");
}

/* the rest of a path behind the folder, or nothing where it isn't in there */
static const char *rest_of(const char *path) {
    size_t n = under ? strlen(under) : 0;
    if (log_fd < 0 || n == 0 || strncmp(path, under, n) != 0) return NULL;
    if (path[n] == 0) return ".";
    return path[n] == '/' ? path + n + 1 : NULL;
}

/* the same of an open file, whose path is written here */
static const char *rest_of_open(int fd, char path[PATH_MAX]) {
    char link[64];
    snprintf(link, sizeof link, "/proc/self/fd/%d", fd);
    ssize_t n = readlink(link, path, PATH_MAX - 1);
    if (n < 0) return NULL;
    path[n] = 0;
    return rest_of(path);
}

/* a line at once, so that those of several threads don't mix */
static void note(const char *line, int n) {
    int kept = errno;
    if (n > 0) syscall(SYS_write, log_fd, line, (size_t)n);
    errno = kept;
}

static void note_put(const char *call, const char *rest, long at, ssize_t put) {
    char line[PATH_MAX + 128];
    note(line, snprintf(line, sizeof line, "%s %s %s %ld %zd\n", call, put < 0 ? "failed" : "ok", rest, at, put));
}

static void note_change(const char *call, const char *rest, int status, const char *more) {
    char line[2 * PATH_MAX + 128];
    note(line, snprintf(line, sizeof line, "%s %s %s %s\n", call, status < 0 ? "failed" : "ok", rest, more));
}

/* the same of a name in an open folder, or of an absolute one */
static const char *rest_at(int folder, const char *name, char path[PATH_MAX]) {
    if (name[0] == '/') return rest_of(name);
    if (folder == AT_FDCWD || !rest_of_open(folder, path)) return NULL;
    size_t n = strlen(path);
    snprintf(path + n, PATH_MAX - n, "/%s", name);
    return rest_of(path);
}

/* whether somebody has the lock of the folder of a file of items. Where nobody has, this has it for an instant. */
static void note_lock(const char *path) {
    size_t n = strlen(path);
    const char *rest = rest_of(path), *slash = strrchr(path, '/');
    if (!rest || n < 6 || strcmp(path + n - 6, ".items") != 0) return;
    char lock[PATH_MAX + 8], line[PATH_MAX + 64];
    snprintf(lock, sizeof lock, "%.*s/lock", (int)(slash - path), path);
    int kept = errno, fd = (int)syscall(SYS_openat, AT_FDCWD, lock, O_RDONLY | O_CLOEXEC), held = 0;
    if (fd >= 0) {
        held = syscall(SYS_flock, fd, LOCK_EX | LOCK_NB) != 0;
        syscall(SYS_close, fd);
    }
    note(line, snprintf(line, sizeof line, "lock %s %.*s\n", held ? "held" : "free", (int)(slash - rest), rest));
    errno = kept;
}

/* opens a file by the call of the system, and notes how */
static int opened(int folder, const char *name, int flags, mode_t mode) {
    int fd = (int)syscall(SYS_openat, folder, name, flags, mode);
    char path[PATH_MAX], how[8];
    const char *rest = fd >= 0 ? rest_of_open(fd, path) : rest_at(folder, name, path);
    snprintf(how, sizeof how, "%s%s%s%s", (flags & O_ACCMODE) == O_RDONLY ? "r" : "w", flags & O_CREAT ? "c" : "", flags & O_EXCL ? "x" : "",
             flags & O_TRUNC ? "t" : "");
    if (rest) note_change("open", rest, fd, how);
    return fd;
}

#define MODE_OF(flags, mode) mode_t mode = 0; if ((flags) & O_CREAT) { va_list more; va_start(more, flags); mode = va_arg(more, mode_t); va_end(more); }

int open(const char *name, int flags, ...) { MODE_OF(flags, mode) return opened(AT_FDCWD, name, flags, mode); }

int open64(const char *name, int flags, ...) { MODE_OF(flags, mode) return opened(AT_FDCWD, name, flags, mode); }

int openat(int folder, const char *name, int flags, ...) { MODE_OF(flags, mode) return opened(folder, name, flags, mode); }

int openat64(int folder, const char *name, int flags, ...) { MODE_OF(flags, mode) return opened(folder, name, flags, mode); }

static int changed(const char *call, const char *rest, int status) {
    if (rest) note_change(call, rest, status, "");
    return status;
}

int mkdir(const char *name, mode_t mode) { return changed("mkdir", rest_of(name), real_mkdir(name, mode)); }

int rmdir(const char *name) { return changed("rmdir", rest_of(name), real_rmdir(name)); }

int unlink(const char *name) { return changed("unlink", rest_of(name), real_unlink(name)); }

int unlinkat(int folder, const char *name, int flags) {
    char path[PATH_MAX];
    const char *rest = rest_at(folder, name, path);
    return changed(flags & AT_REMOVEDIR ? "rmdir" : "unlink", rest, real_unlinkat(folder, name, flags));
}

ssize_t write(int fd, const void *bytes, size_t n) {
    char path[PATH_MAX];
    const char *rest = rest_of_open(fd, path);
    long at = rest ? (long)lseek(fd, 0, SEEK_CUR) : 0;
    if (rest) note_lock(path);
    ssize_t put = real_write(fd, bytes, n);
    if (rest) note_put("write", rest, at, put);
    return put;
}

ssize_t pwrite(int fd, const void *bytes, size_t n, off_t at) {
    char path[PATH_MAX];
    const char *rest = rest_of_open(fd, path);
    if (rest) note_lock(path);
    ssize_t put = real_pwrite(fd, bytes, n, at);
    if (rest) note_put("pwrite", rest, (long)at, put);
    return put;
}

ssize_t pwrite64(int fd, const void *bytes, size_t n, off64_t at) {
    char path[PATH_MAX];
    const char *rest = rest_of_open(fd, path);
    if (rest) note_lock(path);
    ssize_t put = real_pwrite64(fd, bytes, n, at);
    if (rest) note_put("pwrite", rest, (long)at, put);
    return put;
}

static int synced(const char *call, int (*real)(int), int fd) {
    char path[PATH_MAX];
    const char *rest = rest_of_open(fd, path);
    if (rest && atomic_fetch_add(&syncs, 1) + 1 == fail_at) {
        note_change(call, rest, -1, "");
        errno = EIO;
        return -1;
    }
    int status = real(fd);
    if (rest) note_change(call, rest, status, "");
    return status;
}

int fsync(int fd) { return synced("fsync", real_fsync, fd); }

int fdatasync(int fd) { return synced("fdatasync", real_fdatasync, fd); }

static int cut(int fd, long len) {
    char path[PATH_MAX], text[32];
    const char *rest = rest_of_open(fd, path);
    if (rest) note_lock(path);
    int status = real_ftruncate(fd, len);
    snprintf(text, sizeof text, "%ld", len);
    if (rest) note_change("ftruncate", rest, status, text);
    return status;
}

int ftruncate(int fd, off_t len) { return cut(fd, (long)len); }

int ftruncate64(int fd, off64_t len) { return cut(fd, (long)len); }

int rename(const char *from, const char *to) {
    int status = real_rename(from, to);
    const char *rest = rest_of(from), *other = rest_of(to);
    if (rest) note_change("rename", rest, status, other ? other : to);
    return status;
}
