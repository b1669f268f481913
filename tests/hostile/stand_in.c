// Reads a text, makes a growth for each of its lines, and answers each `ok`. What it does in a wrong way is chosen when it is compiled.
#include <errno.h>
#include <stdio.h>
#include <stdlib.h>
#include <string.h>
#include <unistd.h>

static int errno_is_interrupted(void) { return errno == EINTR; }

static void put(const char *text, size_t size) {
    while (size > 0) {
        ssize_t moved = write(1, text, size);
#ifdef LOSES_WRITES
        if (moved < 0) return;
#endif
        if (moved < 0 && errno_is_interrupted()) continue;
        // Where nobody reads any more nothing is said.
        if (moved < 0 && errno == EPIPE) _exit(1);
        if (moved <= 0) { (void)!write(2, "pc-sim: cannot read\n", 20); _exit(1); }
        text += moved, size -= moved;
    }
}

int main(int count, char **words) {
    static char text[1 << 20];
    size_t length = 0;
    ssize_t got;
    if (count > 2 && freopen(words[2], "r", stdin) == NULL) return 1;
    while ((got = read(0, text + length, sizeof text - length)) != 0) {
        if (got < 0) {
#ifdef LOSES_READS
            break;
#endif
            (void)!write(2, "pc-sim: cannot read\n", 20);
            return 1;
        }
        length += got;
    }
    for (char *line = text; line < text + length; line = strchr(line, '\n') + 1) {
        char *grown = malloc(100);
#ifdef CRASHES
        grown[0] = 'o';
#endif
#ifdef HANGS
        while (grown == NULL) pause();
#endif
        if (grown == NULL) {
#ifdef IGNORES
            continue;
#endif
#ifdef HALF_A_LINE
            put("o", 1);
#endif
#ifdef SAYS_NOTHING
            return 4;
#endif
            (void)!write(2, "pc-sim: out of memory\n", 22);
            return 4;
        }
#ifdef ANSWERS_OTHERWISE
        put("what?\n", 6);
#else
        put("ok\n", 3);
#endif
#ifdef TAKES_MUCH
        if (malloc(200 << 20) == NULL) { (void)!write(2, "pc-sim: out of memory\n", 22); return 4; }
#endif
    }
    return 0;
}
