#include <stdlib.h>
#include <string.h>
struct node { struct node *next; int values[3]; };
int main(void) {
    struct node *n = malloc(4 * sizeof(struct node)); /* refused: a `malloc` of several cells */
    struct node *m = malloc(sizeof(n)); /* refused: a `malloc` of several cells */
    struct node *o = calloc(2, sizeof *o); /* refused: a `calloc` of several cells */
    char *text = malloc(20); /* refused: a `malloc` of several cells */
    n = realloc(n, sizeof *n); /* refused: `realloc` */
    free(n->values); /* refused: a `free` of what is no cell */
    free(text); /* refused: a `free` of what is no cell */
    memcpy(m, n, sizeof *m); /* refused: `memcpy` */
    memset(m, 1, sizeof *m); /* refused: into what is no array */
    return 0;
}
