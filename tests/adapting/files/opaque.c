#include <stdlib.h>
struct hidden;
struct node { struct node *next; struct hidden *owner; };
static struct hidden *owner(struct node *n) { return n->owner; }
int main(void) {
    struct node *n = malloc(sizeof *n);
    n->owner = NULL;
    n->next = NULL;
    if (owner(n) == NULL)
        free(n);
    return 0;
}
