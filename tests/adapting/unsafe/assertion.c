/* verify: UNSAFE fault 2 uninitialised dereference line 8 */
#include <assert.h>
#include <stdlib.h>
struct node { int value; struct node *next; };
int main(void) {
    struct node *n = malloc(sizeof *n), *m;
    n->value = 20;
    assert(n->value > 3 || n->next->value == 2);
    free(n);
    return 0;
}
