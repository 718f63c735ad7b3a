/* What the program `why` wrote, held against the model in C (tests/models/model_named.c).
 *
 *     named FILE     pairs, one behind the other: an input and what must come of it, each behind its length, 4 bytes, least significant first
 *
 * Says the first difference and ends with 1; else how many pairs agree. */
#include "model_named.h"
#include <stdio.h>
#include <stdlib.h>
#include <string.h>

/* The next piece of the file, to be freed; nothing at its end. */
static struct room next(FILE *file)
{
    uint8_t size[4];
    struct room none = {NULL, 0};
    if (fread(size, 1, 4, file) != 4)
        return none;
    size_t len = size[0] + 256u * size[1] + 65536u * size[2];
    uint8_t *at = malloc(len + 1);
    if (at == NULL || fread(at, 1, len, file) != len)
        return none;
    at[len] = 0;
    return as_room(at, len);
}

/* A text on one line, cut. */
static void say(const char *text)
{
    for (size_t i = 0; text[i] != 0 && i < 90; i++)
        putchar(text[i] == '\n' ? '|' : text[i]);
}

int main(int count, char **words)
{
    FILE *file = count == 2 ? fopen(words[1], "rb") : NULL;
    unsigned n = 0;
    if (file == NULL) {
        printf("named: a file of pairs is wanted\n");
        return 2;
    }
    for (struct room input = next(file); input.at != NULL; input = next(file)) {
        char text[WHY_TEXT];
        struct room wanted = next(file);
        if (wanted.at == NULL) {
            printf("named: the file is cut short\n");
            return 2;
        }
        n++;
        model_why(input, text);
        if (strcmp(text, (const char *)wanted.at) != 0) {
            printf("named: input %u: the model has ", n);
            say(text);
            printf(", and not ");
            say((const char *)wanted.at);
            printf("\n");
            return 1;
        }
        free(input.at);
        free(wanted.at);
    }
    fclose(file);
    printf("named: %u inputs, as the model has them\n", n);
    return n == 0;
}
