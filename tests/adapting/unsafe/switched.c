/* verify: UNSAFE fault 1 null dereference line 6 */
#include <stdlib.h>
struct node { int value; struct node *next; };
int main(void) {
    struct node *n = NULL;
    switch (n->value + 1) {
    default: break;
    }
    return 0;
}
