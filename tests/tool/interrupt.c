/*
 * Preloaded into the tool: what happens when a sheet file that is not renamed yet has to reach the disk. STOP is the number
 * of a signal that comes then, or 0: the disk is full. The file system has no modes.
 */
#include <errno.h>
#include <signal.h>
#include <stdlib.h>
#include <sys/types.h>

int fchmod(int descriptor, mode_t mode);
int fsync(int descriptor);

int fchmod(int descriptor, mode_t mode)
{
    (void)descriptor;
    (void)mode;
    errno = EPERM;
    return -1;
}

int fsync(int descriptor)
{
    const char *stop = getenv("STOP");
    (void)descriptor;
    if (stop != NULL && atoi(stop) > 0)
        return raise(atoi(stop));
    errno = ENOSPC;
    return -1;
}
