/* Holds each sync of a program, as a slower disk would: loaded before the C library (LD_PRELOAD).

   SLOW_SYNC  for how many microseconds each fsync and fdatasync waits before it is made */
#include <stdlib.h>
#include <sys/syscall.h>
#include <time.h>
#include <unistd.h>

static struct timespec span;

__attribute__((constructor)) static void begin(void)
{
    const char *text = getenv("SLOW_SYNC");
    unsigned long micros = text ? strtoul(text, NULL, 10) : 0;
    span.tv_sec = micros / 1000000;
    span.tv_nsec = micros % 1000000 * 1000;
}

static void hold(void)
{
    struct timespec left = span;
    while (nanosleep(&left, &left))
        ;
}

int fsync(int file)
{
    hold();
    return syscall(SYS_fsync, file);
}

int fdatasync(int file)
{
    hold();
    return syscall(SYS_fdatasync, file);
}
