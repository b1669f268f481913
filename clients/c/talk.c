/* Talks to `pc-sim session`: a thread is created, its agent looks, and commits it.
 *
 *     cc -o talk talk.c && ./talk /path/to/pc-sim
 */
#include <stdio.h>
#include <stdlib.h>
#include <string.h>
#include <sys/wait.h>
#include <unistd.h>

static FILE *to, *from;

/* Sends a line, and gives the line that it is answered. */
static const char *ask(const char *line)
{
    static char answer[65536];
    fprintf(to, "%s\n", line);
    fflush(to); /* the program answers what it has got, so hand it over before waiting */
    if (fgets(answer, sizeof answer, from) == NULL) {
        fprintf(stderr, "the program ended at: %s\n", line);
        exit(1);
    }
    answer[strcspn(answer, "\n")] = '\0';
    return answer;
}

int main(int count, char **words)
{
    int in[2], out[2], status;
    if (count != 2 || pipe(in) != 0 || pipe(out) != 0)
        return 2;
    if (fork() == 0) {
        dup2(in[0], 0), dup2(out[1], 1);
        close(in[0]), close(in[1]), close(out[0]), close(out[1]);
        execlp(words[1], words[1], "session", (char *)NULL);
        _exit(127);
    }
    close(in[0]), close(out[1]);
    to = fdopen(in[1], "w"), from = fdopen(out[0], "r");
    const char *lines[] = {"version 3", "enclave 1 4 9 9 9", "create 0 1 ready", "publish 0", "pick 0 7", "pick 0 1"};
    for (size_t i = 0; i < sizeof lines / sizeof *lines; i++)
        printf("%-20s %s\n", lines[i], ask(lines[i]));
    fclose(to); /* the end of its input is the end of the session */
    return wait(&status) > 0 && WIFEXITED(status) ? WEXITSTATUS(status) : 1;
}
