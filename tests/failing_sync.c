/* Lets each sync of the program that it is loaded into fail, once the file named by SYNC_FAILS_AT is there. */
#include <errno.h>
#include <stdlib.h>
#include <sys/syscall.h>
#include <unistd.h>

static int is_refused(void) {
    const char *at = getenv("SYNC_FAILS_AT");
    return at && access(at, F_OK) == 0;
}

static int sync_file(long call, int file) {
    if (is_refused()) {
        errno = EIO;
        return -1;
    }
    return (int)syscall(call, file);
}

int fsync(int file) {
    return sync_file(SYS_fsync, file);
}

int fdatasync(int file) {
    return sync_file(SYS_fdatasync, file);
}
