#include <stdio.h>
#include <stdlib.h>
#include <string.h>
struct node { struct node *next; char *name; char room[8]; };
static void show(const char *text) { puts(text); } /* refused: a text is read here */
int main(int argc, char **argv) {
    struct node *n = malloc(sizeof *n);
    const char *word = "a";
    const char *late;
    printf("%s", n->name); /* refused: a text is read here */
    if (strcmp(n->room, word)) n->name = "b";
    show(n->name);
    late = n->room;
    puts(late); /* refused: a text is read here */
    puts(argv[1]); /* refused: an index of what is no array */
    if (late[0]) /* refused: a text is read here */
        puts(strdup("c")); /* refused: `strdup` */
    return argc;
}
