/*
 * slow_pipe COUNT COMMAND: runs a command whose standard output is a pipe that never waits and is read slowly, and prints what arrives.
 * So many bytes stand in the pipe before the command's, and are not printed. A program that goes on after a write that failed leaves a gap.
 */
#define _GNU_SOURCE
#include <fcntl.h>
#include <stdio.h>
#include <stdlib.h>
#include <sys/wait.h>
#include <time.h>
#include <unistd.h>

int main(int count, char **arguments) {
    const struct timespec moment = {0, 200000};
    static const char before[4096];
    char bytes[256];
    int ends[2];
    ssize_t got, left = count < 3 ? -1 : atoi(arguments[1]);
    if (left < 0 || left > 4096 || pipe(ends) != 0 || fcntl(ends[1], F_SETPIPE_SZ, 4096) < 0 || fcntl(ends[1], F_SETFL, O_NONBLOCK) != 0) {
        return 2;
    }
    if (write(ends[1], before, (size_t)left) != left) {
        return 2;
    }
    switch (fork()) {
    case -1:
        return 2;
    case 0:
        dup2(ends[1], STDOUT_FILENO);
        close(ends[0]);
        close(ends[1]);
        execv(arguments[2], arguments + 2);
        _exit(127);
    }
    close(ends[1]);
    while ((got = read(ends[0], bytes, sizeof bytes)) > 0) {
        ssize_t passed = got < left ? got : left;
        left -= passed;
        fwrite(bytes + passed, 1, (size_t)(got - passed), stdout);
        nanosleep(&moment, NULL);
    }
    wait(NULL);
    return got < 0 ? 2 : 0;
}
