/* verify: UNSAFE fault 1 null dereference line 7 */
#include <stdlib.h>
struct node { int value; struct node *next; };
int main(void) {
    struct node *n = malloc(sizeof *n);
    n->next = NULL;
    n->next->value = 100;
    free(n);
    return 0;
}
