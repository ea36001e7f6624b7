/* Lies under a program, between it and the C library, and makes one sync of a file fail.

   The sync with the number FAIL_SYNC of the environment, counting from 1, is answered EIO. What was written to that file since
   its last sync is taken back first, as a system may drop such pages, or stays where KEEP is in the environment. Every other
   call is the system's.

   tools/check-unsynced compiles it, and the loader puts it there: cc -shared -fPIC, and the path in LD_PRELOAD. */

#define _GNU_SOURCE
#include <errno.h>
#include <stdlib.h>
#include <sys/stat.h>
#include <sys/syscall.h>
#include <unistd.h>

/* What stood where something was written. */
struct piece {
    struct piece *before;
    int file;
    off_t at;
    off_t size;
    ssize_t length;
    char bytes[];
};

static struct piece *last;
static long count;

static void remember(int file, size_t length, off_t at)
{
    struct piece *piece = malloc(sizeof *piece + length);
    struct stat found;
    if (!piece || fstat(file, &found))
        abort();
    piece->before = last;
    piece->file = file;
    piece->at = at;
    piece->size = found.st_size;
    piece->length = syscall(SYS_pread64, file, piece->bytes, length, at);
    last = piece;
}

/* Forgets what was written to the file, once it is taken back where that is wanted. */
static void forget(int file, int takes_back)
{
    struct piece **at = &last;
    while (*at) {
        struct piece *piece = *at;
        if (piece->file != file) {
            at = &piece->before;
            continue;
        }
        if (takes_back) {
            if (piece->length > 0 && syscall(SYS_pwrite64, file, piece->bytes, piece->length, piece->at) != piece->length)
                abort();
            if (ftruncate(file, piece->size))
                abort();
        }
        *at = piece->before;
        free(piece);
    }
}

static int sync_file(int file, long call)
{
    const char *number = getenv("FAIL_SYNC");
    if (number && ++count == atol(number)) {
        forget(file, !getenv("KEEP"));
        errno = EIO;
        return -1;
    }
    forget(file, 0);
    return syscall(call, file);
}

ssize_t pwrite(int file, const void *bytes, size_t length, off_t at)
{
    remember(file, length, at);
    return syscall(SYS_pwrite64, file, bytes, length, at);
}

ssize_t pwrite64(int file, const void *bytes, size_t length, off_t at)
{
    return pwrite(file, bytes, length, at);
}

int fdatasync(int file)
{
    return sync_file(file, SYS_fdatasync);
}

int fsync(int file)
{
    return sync_file(file, SYS_fsync);
}
