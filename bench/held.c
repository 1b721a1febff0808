/* Starts a program with both outputs to /dev/null and prints what it took: seconds, and the KiB it held at most.

       held PROGRAM WORD..

   The kernel keeps a process's greatest room over an exec, so whatever starts the program counts with it. Here that is
   this small program, whose memory the child shares until then: its own room is printed last, so that a reader sees
   that the program's is greater, and so its own. */
#include <fcntl.h>
#include <stdio.h>
#include <sys/resource.h>
#include <sys/wait.h>
#include <time.h>
#include <unistd.h>

static double now(void) {
    struct timespec time;
    clock_gettime(CLOCK_MONOTONIC, &time);
    return (double)time.tv_sec + (double)time.tv_nsec / 1e9;
}

static long own_room(void) {
    FILE *status = fopen("/proc/self/status", "r");
    char line[256];
    long room = -1;
    while (status && room < 0 && fgets(line, sizeof line, status)) sscanf(line, "VmHWM: %ld", &room);
    return room;
}

int main(int words, char **word) {
    int away = open("/dev/null", O_RDWR), status;
    struct rusage child;
    if (words < 2 || away < 0) return 2;
    double begin = now();
    pid_t program = vfork();
    if (program == 0) {
        dup2(away, 1);
        dup2(away, 2);
        execv(word[1], word + 1);
        _exit(127);
    }
    if (program < 0 || wait4(program, &status, 0, &child) != program) return 2;
    double taken = now() - begin;
    if (!WIFEXITED(status)) return 2;
    printf("%.6f %ld %ld\n", taken, child.ru_maxrss, own_room());
    return WEXITSTATUS(status);
}
