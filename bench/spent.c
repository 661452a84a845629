/* Prints the microseconds of the processor that a run of a program takes, and the most kilobytes that it holds:
   `spent PROGRAM [WORD..] < FILE`. It is run with the file as its input until the runs take 0.3 seconds together, and
   the microseconds are their mean. The status is that of the last run. A run ends at a minute of the processor, or at
   8 GB. */
#include <fcntl.h>
#include <stdio.h>
#include <sys/resource.h>
#include <sys/wait.h>
#include <unistd.h>

static void become(char **words) {
    struct rlimit minute = { 60, 60 }, memory = { 8000000000, 8000000000 };
    lseek(0, 0, SEEK_SET);
    dup2(open("/dev/null", O_WRONLY), 1);
    if (!setrlimit(RLIMIT_CPU, &minute) && !setrlimit(RLIMIT_AS, &memory))
        execv(words[0], words);
    _exit(127);
}

static long micros(struct timeval time) { return time.tv_sec * 1000000L + time.tv_usec; }

int main(int argc, char **argv) {
    long all = 0, runs = 0, peak = 0;
    int status = 0;
    while (argc > 1 && !WIFSIGNALED(status) && all < 300000) {
        struct rusage used;
        pid_t child = fork();
        if (!child)
            become(argv + 1);
        if (wait4(child, &status, 0, &used) != child)
            return 127;
        all += micros(used.ru_utime) + micros(used.ru_stime);
        runs++;
        peak = used.ru_maxrss > peak ? used.ru_maxrss : peak;
    }
    printf("%ld %ld\n", runs ? all / runs : 0, peak);
    return WIFEXITED(status) ? WEXITSTATUS(status) : 1;
}
