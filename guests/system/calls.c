/* The functions that the C library and the program ask the system with. There are the descriptors 0 to 2, and no files.
   Their names are POSIX's and none of C's, so a program that has functions of these names keeps its own. */
#include "system.h"
#include <errno.h>
#include <fcntl.h>
#include <signal.h>
#include <stdint.h>
#include <sys/stat.h>
#include <sys/time.h>
#include <sys/times.h>
#include <time.h>
#include <unistd.h>

int guest_call(int number, int a, int b, int c, int d, int e, int f)
{
    register int a0 __asm__("a0") = a, a1 __asm__("a1") = b, a2 __asm__("a2") = c, a3 __asm__("a3") = d;
    register int a4 __asm__("a4") = e, a5 __asm__("a5") = f, a7 __asm__("a7") = number;
    __asm__ volatile("ecall" : "+r"(a0) : "r"(a1), "r"(a2), "r"(a3), "r"(a4), "r"(a5), "r"(a7) : "memory");
    return a0;
}

static int failed(int error)
{
    errno = error;
    return -1;
}

static int answer(int result)
{
    return result < 0 ? failed(-result) : result;
}

void _exit(int code)
{
    for (;;)
        guest_call(CALL_EXIT_GROUP, code, 0, 0, 0, 0, 0);
}

__attribute__((weak)) ssize_t read(int descriptor, void *place, size_t length)
{
    return answer(guest_call(CALL_READ, descriptor, (int)place, length, 0, 0, 0));
}

__attribute__((weak)) ssize_t write(int descriptor, const void *place, size_t length)
{
    return answer(guest_call(CALL_WRITE, descriptor, (int)place, length, 0, 0, 0));
}

__attribute__((weak)) int close(int descriptor)
{
    return answer(guest_call(CALL_CLOSE, descriptor, 0, 0, 0, 0, 0));
}

/* The call takes the high and the low half of the distance, and puts the new place at an address. */
__attribute__((weak)) off_t lseek(int descriptor, off_t distance, int from)
{
    int64_t place, whole = distance;
    int result = guest_call(CALL_LLSEEK, descriptor, (int)(whole >> 32), (int)whole, (int)&place, from, 0);
    return result < 0 ? failed(-result) : (off_t)place;
}

__attribute__((weak)) int isatty(int descriptor)
{
    enum { TCGETS = 0x5401 };
    char settings[64];
    return answer(guest_call(CALL_IOCTL, descriptor, TCGETS, (int)settings, 0, 0, 0)) == 0;
}

__attribute__((weak)) int fstat(int descriptor, struct stat *status)
{
    if (descriptor < 0 || descriptor > 2)
        return failed(EBADF);
    *status = (struct stat){.st_mode = S_IFCHR | 0600, .st_nlink = 1, .st_blksize = 4096};
    return 0;
}

__attribute__((weak)) int open(const char *path, int flags, ...)
{
    (void)path, (void)flags;
    return failed(ENOENT);
}

__attribute__((weak)) int stat(const char *path, struct stat *status)
{
    (void)path, (void)status;
    return failed(ENOENT);
}

__attribute__((weak)) int unlink(const char *path)
{
    (void)path;
    return failed(ENOENT);
}

/* The heap is what lies between the first break and the present one. */
__attribute__((weak)) void *sbrk(ptrdiff_t size)
{
    static struct __lock lock;
    static int end;
    guest_lock_take(&lock);
    if (!end)
        end = guest_call(CALL_BRK, 0, 0, 0, 0, 0, 0);
    int old = end;
    int moved = guest_call(CALL_BRK, old + size, 0, 0, 0, 0, 0) == old + size;
    if (moved)
        end = old + size;
    guest_lock_give(&lock);
    return moved ? (void *)old : (void *)failed(ENOMEM);
}

__attribute__((weak)) pid_t getpid(void)
{
    return guest_call(CALL_GETPID, 0, 0, 0, 0, 0, 0);
}

/* What a program sends itself goes to the thread that sends it, so it has come before kill returns. */
__attribute__((weak)) int kill(pid_t process, int number)
{
    if (process != guest_call(CALL_GETPID, 0, 0, 0, 0, 0, 0))
        return answer(guest_call(CALL_KILL, process, number, 0, 0, 0, 0));
    int thread = guest_call(CALL_GETTID, 0, 0, 0, 0, 0, 0);
    return answer(guest_call(CALL_TGKILL, process, thread, number, 0, 0, 0));
}

/* Linux's number of a clock; the C library has others. */
static int clock_number(clockid_t clock)
{
    switch (clock) {
    case CLOCK_REALTIME:
        return 0;
    case CLOCK_MONOTONIC:
        return 1;
    case CLOCK_PROCESS_CPUTIME_ID:
        return 2;
    default:
        return -1;
    }
}

/* The call gives seconds and nanoseconds in 64 bits each. */
static int read_clock(clockid_t clock, struct timespec *time)
{
    int64_t read[2];
    int number = clock_number(clock);
    int result = number < 0 ? -EINVAL : guest_call(CALL_CLOCK_GETTIME, number, (int)read, 0, 0, 0, 0);
    if (result < 0)
        return failed(-result);
    *time = (struct timespec){.tv_sec = read[0], .tv_nsec = (long)read[1]};
    return 0;
}

__attribute__((weak)) int clock_gettime(clockid_t clock, struct timespec *time)
{
    return read_clock(clock, time);
}

__attribute__((weak)) int gettimeofday(struct timeval *time, void *zone)
{
    struct timespec now;
    (void)zone;
    if (read_clock(CLOCK_REALTIME, &now) < 0)
        return -1;
    *time = (struct timeval){.tv_sec = now.tv_sec, .tv_usec = now.tv_nsec / 1000};
    return 0;
}

/* All time is the program's own. */
__attribute__((weak)) clock_t times(struct tms *spent)
{
    struct timespec now;
    if (read_clock(CLOCK_PROCESS_CPUTIME_ID, &now) < 0)
        return -1;
    clock_t ticks = (clock_t)(now.tv_sec * CLOCKS_PER_SEC) + now.tv_nsec / (1000000000 / CLOCKS_PER_SEC);
    *spent = (struct tms){.tms_utime = ticks};
    return ticks;
}

static int is_before(const struct timespec *one, const struct timespec *other)
{
    return one->tv_sec < other->tv_sec || (one->tv_sec == other->tv_sec && one->tv_nsec < other->tv_nsec);
}

/* There is no call that sleeps, so the other threads have their turns until the time has come. */
int guest_sleep(const struct timespec *length)
{
    enum { SECOND = 1000000000 };
    struct timespec now, end;
    if (length->tv_sec < 0 || length->tv_nsec < 0 || length->tv_nsec >= SECOND)
        return failed(EINVAL);
    read_clock(CLOCK_MONOTONIC, &end);
    end.tv_sec += length->tv_sec + (end.tv_nsec + length->tv_nsec) / SECOND;
    end.tv_nsec = (end.tv_nsec + length->tv_nsec) % SECOND;
    do {
        guest_call(CALL_SCHED_YIELD, 0, 0, 0, 0, 0, 0);
        read_clock(CLOCK_MONOTONIC, &now);
    } while (is_before(&now, &end));
    return 0;
}

__attribute__((weak)) int nanosleep(const struct timespec *length, struct timespec *rest)
{
    (void)rest;
    return guest_sleep(length);
}

__attribute__((weak)) unsigned sleep(unsigned seconds)
{
    guest_sleep(&(struct timespec){.tv_sec = seconds});
    return 0;
}

__attribute__((weak)) int usleep(useconds_t length)
{
    return guest_sleep(&(struct timespec){.tv_sec = length / 1000000, .tv_nsec = length % 1000000 * 1000});
}

__attribute__((weak)) int getentropy(void *place, size_t length)
{
    if (length > 256)
        return failed(EIO);
    int result = guest_call(CALL_GETRANDOM, (int)place, length, 0, 0, 0, 0);
    return result < 0 ? failed(-result) : 0;
}
