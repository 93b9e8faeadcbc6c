/* verify: UNSAFE fault 1 null dereference line 7 */
#include <stdlib.h>
struct node { int value; struct node *next; };
int main(void) {
    struct node *n = NULL;
    int k;
    k = n ? 3 : n->value;
    return 0;
}
