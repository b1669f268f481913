/* How long a command and its answer take over pipes, where each answer is awaited before the next command is sent.
 *
 *     cc -O2 -o round_trip bench/round_trip.c && ./round_trip PROGRAM [COUNT]
 *
 * prints the mean of COUNT round trips (100,000) in microseconds of wall time.
 */
#include <stdio.h>
#include <stdlib.h>
#include <string.h>
#include <time.h>
#include <unistd.h>

static int to, from;

/* Sends a line, and reads until an answer is whole. */
static void ask(const char *line)
{
    char answer[4096];
    size_t length = strlen(line), held = 0;
    if (write(to, line, length) != (ssize_t)length)
        exit(1);
    do {
        ssize_t count = read(from, answer + held, sizeof answer - held);
        if (count <= 0)
            exit(1);
        held += (size_t)count;
    } while (answer[held - 1] != '\n');
    if (strncmp(answer, "ok", 2) != 0)
        exit(1);
}

int main(int count, char **words)
{
    int in[2], out[2];
    long trips = count > 2 ? atol(words[2]) : 100000;
    struct timespec begin, end;
    if (count < 2 || trips < 1 || pipe(in) != 0 || pipe(out) != 0)
        return 2;
    if (fork() == 0) {
        dup2(in[0], 0), dup2(out[1], 1);
        close(in[0]), close(in[1]), close(out[0]), close(out[1]);
        execlp(words[1], words[1], "session", (char *)NULL);
        _exit(127);
    }
    close(in[0]), close(out[1]);
    to = in[1], from = out[0];
    ask("enclave 1 4 9 9 9\n");
    clock_gettime(CLOCK_MONOTONIC, &begin);
    for (long i = 0; i < trips; i++)
        ask("rouse 0\n");
    clock_gettime(CLOCK_MONOTONIC, &end);
    double took = (double)(end.tv_sec - begin.tv_sec) * 1e6 + (double)(end.tv_nsec - begin.tv_nsec) / 1e3;
    printf("%.2f microseconds\n", took / (double)trips);
    return 0;
}
