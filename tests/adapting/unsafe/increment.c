/* verify: UNSAFE fault 1 null dereference line 7 */
#include <stdlib.h>
struct node { int count; struct node *next; };
int main(void) {
    struct node *n = NULL;
    int k = 0;
    for (k = 0; k < 3; n->count++, k++)
        ;
    return 0;
}
