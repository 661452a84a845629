/* raise calls the handler once, and without one the signal ends the program. */
#include <signal.h>
#include <stdio.h>
#include <unistd.h>

static volatile int seen;

static void note(int number)
{
    seen = number;
}

int main(void)
{
    signal(SIGUSR1, note);
    printf("raise: %d, seen: %d\n", raise(SIGUSR1), seen == SIGUSR1);
    signal(SIGTERM, SIG_IGN);
    printf("raise: %d\n", raise(SIGTERM));
    printf("kill with 0: %d\n", kill(getpid(), 0));
    puts("and now");
    kill(getpid(), 9);
    puts("never");
    return 0;
}
