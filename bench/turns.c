/* Runs programs in turns on one input file, their output thrown away, and prints the least time of
   each in processor seconds, and as a multiple of the last one's.  Usage: turns ROUNDS INPUT PROGRAM.. */

#include <fcntl.h>
#include <stdio.h>
#include <stdlib.h>
#include <sys/resource.h>
#include <sys/wait.h>
#include <unistd.h>

static double run(const char *input, const char *program)
{
    struct rusage use;
    int status;
    pid_t child = fork();

    if (child == 0) {
        int in = open(input, O_RDONLY), out = open("/dev/null", O_WRONLY);

        if (in < 0 || out < 0 || dup2(in, 0) < 0 || dup2(out, 1) < 0)
            _exit(127);
        execl(program, program, (char *)NULL);
        _exit(127);
    }
    if (child < 0 || wait4(child, &status, 0, &use) < 0 || !WIFEXITED(status) || WEXITSTATUS(status) == 127) {
        fprintf(stderr, "turns: %s does not run\n", program);
        exit(1);
    }
    return (double)(use.ru_utime.tv_sec + use.ru_stime.tv_sec) +
           1e-6 * (double)(use.ru_utime.tv_usec + use.ru_stime.tv_usec);
}

int main(int argc, char **argv)
{
    double best[16] = {0};
    int rounds = argc > 3 ? atoi(argv[1]) : 0, programs = argc - 3, round, i;

    if (rounds < 1 || programs < 1 || programs > 16) {
        fprintf(stderr, "usage: turns ROUNDS INPUT PROGRAM..\n");
        return 2;
    }
    for (round = 0; round < rounds; round++)
        for (i = 0; i < programs; i++) {
            double time = run(argv[2], argv[3 + i]);

            if (round == 0 || time < best[i])
                best[i] = time;
        }
    for (i = 0; i < programs; i++)
        printf("%8.2f s (%.2f)  %s\n", best[i], best[i] / best[programs - 1], argv[3 + i]);
    return 0;
}
