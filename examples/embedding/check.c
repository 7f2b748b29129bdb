/* Checks the file that is named on the command line, and says what the library answers. */
#include <stdio.h>
#include <stdlib.h>

#include "jnirun_check.h"

enum { MOST_BYTES = 4194304 };

int main(int argc, char **argv)
{
    FILE *file = argc == 2 ? fopen(argv[1], "rb") : NULL;
    uint8_t *text = malloc(MOST_BYTES);
    struct jnirun_fault fault = {0, 0};
    int32_t answer;

    if (file == NULL || text == NULL) {
        fputs("usage: check FILE\n", stderr);
        return 2;
    }
    answer = jnirun_check(text, fread(text, 1, MOST_BYTES, file), &fault);
    if (answer == JNIRUN_ACCEPTED)
        puts("accepted");
    else if (answer == JNIRUN_REFUSED)
        printf("refused: fault %lu line %lu\n", (unsigned long)fault.number, (unsigned long)fault.line);
    else
        puts("out of memory");
    free(text);
    fclose(file);
    return (int)answer;
}
