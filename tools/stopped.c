/* Lies under a program, between it and the C library, and stops it at one call that changes a file, as a machine does that stops.

   The program is killed before the call with the number STOP_AT of the environment, counting from 1, is done; with 0 as it ends. Calls
   on files in the folder STOP_IN count: those that write, cut, sync, make, rename, link or remove one, and syncs of the folder. What was
   not synced stays then, or is taken back first, as LOSE wants it: `bytes`, what was written to files or cut off them since the last
   sync of each; or `all`, besides the names that were made, changed or removed in a folder since its last sync. Each call that counts
   adds a byte to the file STOP_TOLD: w of a write, t of a cut, s of a sync, n of a name. Files that are to come back stay under other
   names in the folder STOP_KEPT, of the same file system. Every other call is the system's.

   tools/office.py compiles it, and the loader puts it there: cc -shared -fPIC, and the path in LD_PRELOAD. */

#define _GNU_SOURCE
#include <errno.h>
#include <fcntl.h>
#include <limits.h>
#include <signal.h>
#include <stdarg.h>
#include <stdio.h>
#include <stdlib.h>
#include <string.h>
#include <sys/stat.h>
#include <sys/syscall.h>
#include <sys/uio.h>
#include <unistd.h>

enum kind { BYTES, MADE, REMOVED, RENAMED };

/* What was done and may not be on the disk. */
struct change {
    struct change *before;
    enum kind kind;
    dev_t device;
    ino_t inode; /* of the file whose bytes changed, or of the folder whose names did */
    int file;    /* a descriptor of that file */
    off_t at, size;
    ssize_t length;
    char *from, *to; /* names; of a file that was removed, or had the new name, `kept` is where it stays */
    char *kept;
    char bytes[];
};

/* A file that was changed, with a descriptor that is never closed, so that no lock of the program is lost. */
struct known {
    struct known *before;
    dev_t device;
    ino_t inode;
    int file;
};

static struct change *last;
static struct known *all;
static long count, stop_at = -1;
static const char *folder, *kept;
static int told = -1;
static int has_ended;

static void fail(const char *what)
{
    dprintf(2, "stopped: %s: %s\n", what, strerror(errno));
    abort();
}

static void begin(void)
{
    static int has_begun;
    const char *number = getenv("STOP_AT"), *name = getenv("STOP_TOLD");
    if (has_begun)
        return;
    has_begun = 1;
    folder = getenv("STOP_IN");
    kept = getenv("STOP_KEPT");
    if (number)
        stop_at = atol(number);
    if (name && (told = syscall(SYS_openat, AT_FDCWD, name, O_WRONLY | O_CREAT | O_APPEND | O_CLOEXEC, 0600)) < 0)
        fail(name);
}

static int is_in(const char *path)
{
    size_t length = folder ? strlen(folder) : 0;
    return length && !strncmp(path, folder, length) && (!path[length] || path[length] == '/');
}

/* The path from the root, which the caller frees. */
static char *whole(const char *path)
{
    char here[PATH_MAX], *text;
    if (path[0] == '/')
        return strdup(path);
    if (!getcwd(here, sizeof here) || asprintf(&text, "%s/%s", here, path) < 0)
        fail("path");
    return text;
}

/* Whether a descriptor is of a file, or a folder, in the folder whose calls count. */
static int is_ours(int file, struct stat *found)
{
    char link[64], path[PATH_MAX];
    ssize_t length;
    begin();
    if (!folder || has_ended || fstat(file, found) || !(S_ISREG(found->st_mode) || S_ISDIR(found->st_mode)))
        return 0;
    snprintf(link, sizeof link, "/proc/self/fd/%d", file);
    length = readlink(link, path, sizeof path - 1);
    if (length < 0)
        return 0;
    path[length] = 0;
    return is_in(path);
}

static void folder_of(const char *path, struct change *change)
{
    char *text = strdup(path), *slash = strrchr(text, '/');
    struct stat found;
    *(slash == text ? slash + 1 : slash) = 0;
    if (stat(text, &found))
        fail(text);
    change->device = found.st_dev;
    change->inode = found.st_ino;
    free(text);
}

static struct change *added(enum kind kind, size_t length)
{
    struct change *change = calloc(1, sizeof *change + length);
    if (!change)
        fail("memory");
    change->kind = kind;
    change->before = last;
    change->file = -1;
    last = change;
    return change;
}

/* Keeps a file that loses its name. */
static char *keep(const char *path)
{
    static long number;
    char *text;
    if (asprintf(&text, "%s/%ld", kept, number++) < 0 || syscall(SYS_linkat, AT_FDCWD, path, AT_FDCWD, text, 0))
        fail(path);
    return text;
}

static int descriptor(int file, const struct stat *found)
{
    char link[64];
    struct known *known;
    for (known = all; known; known = known->before)
        if (known->device == found->st_dev && known->inode == found->st_ino)
            return known->file;
    snprintf(link, sizeof link, "/proc/self/fd/%d", file);
    known = malloc(sizeof *known);
    if (!known || (known->file = syscall(SYS_openat, AT_FDCWD, link, O_RDWR | O_CLOEXEC, 0)) < 0)
        fail("descriptor");
    known->before = all;
    known->device = found->st_dev;
    known->inode = found->st_ino;
    all = known;
    return known->file;
}

/* Remembers what stands where something is to be written, or from there to the end where it is to be cut off. */
static void remember(int file, const struct stat *found, off_t at, size_t length)
{
    struct change *change;
    int own = descriptor(file, found);
    if (at >= found->st_size)
        length = 0;
    else if (length > (size_t)(found->st_size - at))
        length = found->st_size - at;
    change = added(BYTES, length);
    change->device = found->st_dev;
    change->inode = found->st_ino;
    change->file = own;
    change->at = at;
    change->size = found->st_size;
    change->length = syscall(SYS_pread64, own, change->bytes, length, at);
    if (change->length != (ssize_t)length)
        fail("read");
}

static void take_back(const struct change *change)
{
    switch (change->kind) {
    case BYTES:
        if (change->length && syscall(SYS_pwrite64, change->file, change->bytes, change->length, change->at) != change->length)
            fail("write");
        if (syscall(SYS_ftruncate, change->file, change->size))
            fail("cut");
        break;
    case MADE:
        if (syscall(SYS_unlinkat, AT_FDCWD, change->to, 0))
            fail(change->to);
        break;
    case RENAMED:
        if (syscall(SYS_renameat2, AT_FDCWD, change->to, AT_FDCWD, change->from, 0))
            fail(change->to);
        if (change->kept && syscall(SYS_linkat, AT_FDCWD, change->kept, AT_FDCWD, change->to, 0))
            fail(change->kept);
        break;
    case REMOVED:
        if (syscall(SYS_linkat, AT_FDCWD, change->kept, AT_FDCWD, change->from, 0))
            fail(change->kept);
        break;
    }
}

static void stop(void)
{
    const char *lose = getenv("LOSE");
    for (struct change *change = last; lose && change; change = change->before)
        if (change->kind == BYTES || !strcmp(lose, "all"))
            take_back(change);
    syscall(SYS_kill, getpid(), SIGKILL);
    _exit(1);
}

static void step(char of)
{
    if (told >= 0 && syscall(SYS_write, told, &of, 1) != 1)
        fail("told");
    if (++count == stop_at)
        stop();
}

/* What was done to a file's bytes, or to a folder's names, is on the disk. */
static void forget(const struct stat *found)
{
    struct change **at = &last;
    while (*at) {
        struct change *change = *at;
        int is_name = change->kind != BYTES;
        if (change->device != found->st_dev || change->inode != found->st_ino || is_name != S_ISDIR(found->st_mode)) {
            at = &change->before;
            continue;
        }
        *at = change->before;
        free(change);
    }
}

static void wrote(int file, off_t at, size_t length, int at_end)
{
    struct stat found;
    if (!is_ours(file, &found) || !S_ISREG(found.st_mode))
        return;
    step('w');
    if (at < 0)
        at = at_end || (fcntl(file, F_GETFL) & O_APPEND) ? found.st_size : lseek(file, 0, SEEK_CUR);
    remember(file, &found, at, length);
}

ssize_t pwrite(int file, const void *bytes, size_t length, off_t at)
{
    wrote(file, at, length, 0);
    return syscall(SYS_pwrite64, file, bytes, length, at);
}

ssize_t pwrite64(int file, const void *bytes, size_t length, off_t at)
{
    return pwrite(file, bytes, length, at);
}

ssize_t write(int file, const void *bytes, size_t length)
{
    wrote(file, -1, length, 0);
    return syscall(SYS_write, file, bytes, length);
}

ssize_t writev(int file, const struct iovec *parts, int many)
{
    size_t length = 0;
    for (int part = 0; part < many; part++)
        length += parts[part].iov_len;
    wrote(file, -1, length, 0);
    return syscall(SYS_writev, file, parts, many);
}

static void cut(int file, off_t size)
{
    struct stat found;
    if (!is_ours(file, &found) || !S_ISREG(found.st_mode))
        return;
    step('t');
    remember(file, &found, size, size < found.st_size ? found.st_size - size : 0);
}

int ftruncate(int file, off_t size)
{
    cut(file, size);
    return syscall(SYS_ftruncate, file, size);
}

int ftruncate64(int file, off_t size)
{
    return ftruncate(file, size);
}

static int synced(int file, long call)
{
    struct stat found;
    int is_counted = is_ours(file, &found), answer;
    if (is_counted)
        step('s');
    answer = syscall(call, file);
    if (is_counted && !answer)
        forget(&found);
    return answer;
}

int fsync(int file)
{
    return synced(file, SYS_fsync);
}

int fdatasync(int file)
{
    return synced(file, SYS_fdatasync);
}

static int opened(int at, const char *path, int flags, mode_t mode)
{
    char *text;
    int file, is_new;
    struct stat found;
    begin();
    if (!folder || has_ended || !(flags & (O_CREAT | O_TRUNC)) || at != AT_FDCWD)
        return syscall(SYS_openat, at, path, flags, mode);
    text = whole(path);
    is_new = lstat(text, &found) != 0;
    if (!is_in(text) || (is_new && !(flags & O_CREAT)) || (!is_new && !((flags & O_TRUNC) && S_ISREG(found.st_mode)))) {
        free(text);
        return syscall(SYS_openat, at, path, flags, mode);
    }
    if (is_new) {
        step('n');
        file = syscall(SYS_openat, at, path, flags, mode);
        if (file >= 0) {
            struct change *change = added(MADE, 0);
            folder_of(text, change);
            change->to = text;
        }
        return file;
    }
    free(text);
    file = syscall(SYS_openat, at, path, flags & ~O_TRUNC, mode);
    if (file >= 0 && ftruncate(file, 0)) {
        close(file);
        return -1;
    }
    return file;
}

int open(const char *path, int flags, ...)
{
    va_list rest;
    mode_t mode;
    va_start(rest, flags);
    mode = va_arg(rest, mode_t);
    va_end(rest);
    return opened(AT_FDCWD, path, flags, mode);
}

int open64(const char *path, int flags, ...)
{
    va_list rest;
    mode_t mode;
    va_start(rest, flags);
    mode = va_arg(rest, mode_t);
    va_end(rest);
    return opened(AT_FDCWD, path, flags, mode);
}

int openat(int at, const char *path, int flags, ...)
{
    va_list rest;
    mode_t mode;
    va_start(rest, flags);
    mode = va_arg(rest, mode_t);
    va_end(rest);
    return opened(at, path, flags, mode);
}

int openat64(int at, const char *path, int flags, ...)
{
    va_list rest;
    mode_t mode;
    va_start(rest, flags);
    mode = va_arg(rest, mode_t);
    va_end(rest);
    return opened(at, path, flags, mode);
}

static int is_file_of_ours(const char *text)
{
    struct stat found;
    begin();
    return folder && !has_ended && is_in(text) && !lstat(text, &found) && S_ISREG(found.st_mode);
}

int rename(const char *from, const char *to)
{
    char *first = whole(from), *second = whole(to);
    int is_counted = is_file_of_ours(first) && is_in(second), answer;
    struct change *change = NULL;
    if (is_counted) {
        step('n');
        change = added(RENAMED, 0);
        folder_of(second, change);
        change->from = first;
        change->to = second;
        change->kept = is_file_of_ours(second) ? keep(second) : NULL;
    }
    answer = syscall(SYS_renameat2, AT_FDCWD, from, AT_FDCWD, to, 0);
    if (change && answer)
        last = change->before;
    return answer;
}

int link(const char *from, const char *to)
{
    char *first = whole(from), *second = whole(to);
    int is_counted = is_file_of_ours(first) && is_in(second), answer;
    if (is_counted)
        step('n');
    answer = syscall(SYS_linkat, AT_FDCWD, from, AT_FDCWD, to, 0);
    if (is_counted && !answer) {
        struct change *change = added(MADE, 0);
        folder_of(second, change);
        change->to = second;
    }
    return answer;
}

int unlink(const char *path)
{
    char *text = whole(path);
    int is_counted = is_file_of_ours(text), answer;
    struct change *change = NULL;
    if (is_counted) {
        step('n');
        change = added(REMOVED, 0);
        folder_of(text, change);
        change->from = text;
        change->kept = keep(text);
    }
    answer = syscall(SYS_unlinkat, AT_FDCWD, path, 0);
    if (change && answer)
        last = change->before;
    return answer;
}

/* The end of the program is a call like any other to who wants it. */
__attribute__((destructor)) static void end(void)
{
    if (folder && !has_ended && stop_at == 0)
        stop();
    has_ended = 1;
}
