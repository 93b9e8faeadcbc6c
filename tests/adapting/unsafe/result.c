/* verify: UNSAFE fault 1 null dereference line 4 */
#include <stdlib.h>
struct node { int value; struct node *next; };
static int value(struct node *n) { return n->value * 2; }
int main(void) {
    int k = value(NULL);
    return 0;
}
