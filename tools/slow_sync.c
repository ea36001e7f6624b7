/* Lies under a program, between it and the C library, and makes each sync of a file take longer.

   Once the system has synced, a sync waits for as many microseconds more as SLOW_SYNC of the environment tells: fdatasync, fsync, and
   sync_file_range and msync where they are to wait. With ALONE in the environment the system is asked for none of them, so that a sync
   takes that time whatever the disk is, and nothing is kept where the machine stops. The processor is free meanwhile, as it is while a
   disk works. Every other call is the system's.

   tools/measure-commits compiles it, and the loader puts it there: cc -shared -fPIC, and the path in LD_PRELOAD. */

#define _GNU_SOURCE
#include <errno.h>
#include <fcntl.h>
#include <stdlib.h>
#include <sys/mman.h>
#include <sys/prctl.h>
#include <sys/syscall.h>
#include <time.h>
#include <unistd.h>

static long microseconds;
static int is_alone;

/* Sleeps end at their moment, and not up to 50 microseconds later, as they may where nothing is said. */
__attribute__((constructor)) static void begin(void)
{
    const char *told = getenv("SLOW_SYNC");
    microseconds = told ? atol(told) : 0;
    is_alone = getenv("ALONE") != NULL;
    prctl(PR_SET_TIMERSLACK, 1UL, 0UL, 0UL, 0UL);
}

static int later(int answer)
{
    int error = errno;
    struct timespec until;
    if (microseconds > 0) {
        clock_gettime(CLOCK_MONOTONIC, &until);
        until.tv_nsec += microseconds % 1000000 * 1000;
        until.tv_sec += microseconds / 1000000 + until.tv_nsec / 1000000000;
        until.tv_nsec %= 1000000000;
        while (clock_nanosleep(CLOCK_MONOTONIC, TIMER_ABSTIME, &until, NULL) == EINTR)
            ;
    }
    errno = error;
    return answer;
}

int fdatasync(int file)
{
    return later(is_alone ? 0 : syscall(SYS_fdatasync, file));
}

int fsync(int file)
{
    return later(is_alone ? 0 : syscall(SYS_fsync, file));
}

int sync_file_range(int file, off64_t at, off64_t length, unsigned flags)
{
    int waits = flags & SYNC_FILE_RANGE_WAIT_AFTER;
    int answer = waits && is_alone ? 0 : syscall(SYS_sync_file_range, file, at, length, flags);
    return waits ? later(answer) : answer;
}

int msync(void *at, size_t length, int flags)
{
    int waits = flags & MS_SYNC;
    int answer = waits && is_alone ? 0 : syscall(SYS_msync, at, length, flags);
    return waits ? later(answer) : answer;
}
