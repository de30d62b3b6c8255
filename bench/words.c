/* Reads a file line by line and keeps its words: what a plain reader of the same file costs. */
#include <stdio.h>
#include <stdlib.h>
#include <string.h>

int main(int count, char **arguments) {
    FILE *file = count == 2 ? fopen(arguments[1], "r") : NULL;
    char *line = NULL;
    size_t room = 0, lines = 0, words = 0;
    if (file == NULL) return 1;
    for (; getline(&line, &room, file) >= 0; lines++) {
        for (char *word = strtok(line, " \t\r\n"); word != NULL; word = strtok(NULL, " \t\r\n"), words++) {
            if (strdup(word) == NULL) return 1;
        }
    }
    printf("%zu lines, %zu words\n", lines, words);
    return 0;
}
