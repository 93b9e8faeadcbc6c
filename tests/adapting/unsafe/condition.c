/* verify: UNSAFE fault 1 null dereference line 7 */
#include <stdlib.h>
struct node { int value; struct node *next; };
int main(void) {
    struct node *n = NULL;
    int k = 2;
    if (k > 1 && n->value < 3)
        k = 0;
    return k;
}
