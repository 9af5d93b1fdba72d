/* Gives the program that it is loaded into the minute in the file named by MINUTE_IN, in place of the time of day. */
#include <fcntl.h>
#include <stdlib.h>
#include <sys/syscall.h>
#include <time.h>
#include <unistd.h>

int clock_gettime(clockid_t clock, struct timespec *now) {
    char digits[24] = "";
    if (clock != CLOCK_REALTIME) {
        return (int)syscall(SYS_clock_gettime, clock, now);
    }
    int file = open(getenv("MINUTE_IN"), O_RDONLY);
    if (file < 0 || read(file, digits, sizeof digits - 1) < 1) {
        return -1;
    }
    close(file);
    now->tv_sec = 60 * atoll(digits);
    now->tv_nsec = 0;
    return 0;
}
