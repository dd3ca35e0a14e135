/* Finds the states of a closed table again, breadth first, as often as the word says, and prints how many there are.
   It reads the number of states and that of rows, and of each row the state before it and the one after it (-1: none). */
#include <stdio.h>
#include <stdlib.h>
#include <string.h>

int main(int count, char **words) {
    long states, rows, times = count > 1 ? atol(words[1]) : 1, found = 0;
    if (scanf("%ld %ld", &states, &rows) != 2) return 2;
    long *first = calloc(states + 1, sizeof *first), *next = malloc(rows * sizeof *next), *line = malloc(states * sizeof *line);
    char *seen = malloc(states);
    if (!first || !next || !line || !seen) return 3;
    for (long row = 0, from; row < rows; row++) {
        if (scanf("%ld %ld", &from, &next[row]) != 2) return 2;
        first[from + 1] = row + 1;
    }
    for (long time = 0; time < times; time++) {
        memset(seen, 0, states);
        line[0] = 0, seen[0] = 1, found = 1;
        for (long at = 0; at < found; at++)
            for (long row = first[line[at]]; row < first[line[at] + 1]; row++)
                if (next[row] >= 0 && !seen[next[row]]) seen[next[row]] = 1, line[found++] = next[row];
    }
    printf("%ld\n", found);
    return 0;
}
