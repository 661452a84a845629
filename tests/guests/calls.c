/* What the C library's calls answer: there are the descriptors 0 to 2, and no files. */
#include <errno.h>
#include <stdio.h>
#include <stdlib.h>
#include <string.h>
#include <sys/stat.h>
#include <sys/time.h>
#include <sys/times.h>
#include <time.h>
#include <unistd.h>

static void descriptors(void)
{
    char text[8];
    struct stat status;
    ssize_t count = read(0, text, 4);
    printf("read %d: %.4s\n", (int)count, text);
    count = read(0, text, sizeof text);
    printf("read %d\n", (int)count);
    count = write(1, "written\n", 8);
    printf("write %d\n", (int)count);
    count = read(7, text, 1);
    printf("read of 7: %d, bad descriptor %d\n", (int)count, errno == EBADF);
    count = write(7, text, 1);
    printf("write to 7: %d, bad descriptor %d\n", (int)count, errno == EBADF);
    long place = lseek(0, 0, SEEK_CUR);
    printf("lseek %ld, a pipe %d\n", place, errno == ESPIPE);
    int closed = close(9);
    printf("close of 9: %d, bad descriptor %d\n", closed, errno == EBADF);
    int known = fstat(1, &status);
    printf("fstat %d, a device %d\n", known, S_ISCHR(status.st_mode));
    printf("isatty %d\n", isatty(0));
    printf("fileno %d %d %d\n", fileno(stdin), fileno(stdout), fileno(stderr));
}

static void files(void)
{
    struct stat status;
    FILE *file = fopen("tests/guests/calls.c", "r");
    printf("fopen: none %d, no such file %d\n", file == NULL, errno == ENOENT);
    errno = 0;
    int known = stat("tests/guests/calls.c", &status);
    printf("stat %d, no such file %d\n", known, errno == ENOENT);
    errno = 0;
    known = remove("nothing");
    printf("remove %d, no such file %d\n", known, errno == ENOENT);
    perror("the last");
}

static void heap(void)
{
    char *end = sbrk(0), *old = sbrk(10000);
    int cleared = 1;
    for (int i = 0; i < 10000; i++)
        cleared &= old[i] == 0;
    printf("sbrk: the end %d, zeros %d, moved %d\n", old == end, cleared, (int)((char *)sbrk(-10000) - end));
    errno = 0;
    void *none = sbrk(0x7fffffff);
    printf("too much: %d, no memory %d\n", none == (void *)-1, errno == ENOMEM);
    printf("malloc of too much: none %d\n", malloc(0x60000000) == NULL);
}

static void clocks(void)
{
    struct timespec one, two;
    struct timeval day;
    struct tms spent;
    int refused = clock_gettime(CLOCK_MONOTONIC, &one);
    for (volatile int i = 0; i < 1000; i++)
        ;
    refused |= clock_gettime(CLOCK_MONOTONIC, &two);
    long between = (two.tv_sec - one.tv_sec) * 1000000000 + (two.tv_nsec - one.tv_nsec);
    printf("clock_gettime %d, goes on %d\n", refused, between > 0);
    refused = gettimeofday(&day, NULL);
    printf("gettimeofday %d, within a second %d\n", refused, day.tv_usec >= 0 && day.tv_usec < 1000000);
    printf("times %d, own time only %d\n", times(&spent) != (clock_t)-1, spent.tms_stime == 0 && spent.tms_cutime == 0);
    errno = 0;
    refused = clock_gettime(77, &one);
    printf("no such clock %d %d\n", refused, errno == EINVAL);
}

static void random_bytes(void)
{
    unsigned char bytes[300];
    int refused = getentropy(bytes, 256);
    errno = 0;
    printf("getentropy %d, of more %d", refused, getentropy(bytes, 257));
    printf(", refused %d\n", errno == EIO);
}

int main(void)
{
    descriptors();
    files();
    heap();
    clocks();
    random_bytes();
    printf("getpid %d\n", getpid() > 0);
    return 0;
}
