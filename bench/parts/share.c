/* A compiler that takes its time: with -E it prints its source; else it sleeps for the milliseconds after SLEEP in it, and writes an object. */
#include <stdio.h>
#include <stdlib.h>
#include <string.h>
#include <time.h>

static const char object[] = "\177ELF\2\1\1";

int main(int argc, char **argv)
{
    int preprocesses = 0;
    const char *source = 0, *output = 0;
    static char text[65536];
    for (int at = 1; at < argc; at++) {
        if (!strcmp(argv[at], "-E"))
            preprocesses = 1;
        else if (!strcmp(argv[at], "-o") && at + 1 < argc)
            output = argv[++at];
        else if (argv[at][0] != '-')
            source = argv[at];
    }
    FILE *file = source ? fopen(source, "r") : stdin;
    if (!file)
        return 1;
    size_t count = fread(text, 1, sizeof text - 1, file);
    if (preprocesses) {
        FILE *to = output ? fopen(output, "w") : stdout;
        fwrite(text, 1, count, to);
        return fclose(to) != 0;
    }
    const char *word = strstr(text, "SLEEP ");
    long millis = word ? atol(word + 6) : 0;
    struct timespec pause = {millis / 1000, millis % 1000 * 1000000L};
    nanosleep(&pause, 0);
    file = output ? fopen(output, "w") : 0;
    if (!file)
        return 1;
    /* the head of an object of this kind, as daemons look at it */
    char head[64] = {0};
    memcpy(head, object, sizeof object - 1);
    head[16] = 1;
    fwrite(head, 1, sizeof head, file);
    return fclose(file) != 0;
}
