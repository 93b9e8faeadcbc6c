/* verify: UNSAFE fault 1 null dereference line 8 */
#include <stdlib.h>
struct node { int values[3]; int v; struct node *next; };
int main(void) {
    struct node *n = NULL, *m = malloc(sizeof *m);
    m->v = 1;
    int k;
    k = n->values[(n = m)->v];
    free(m);
    return 0;
}
