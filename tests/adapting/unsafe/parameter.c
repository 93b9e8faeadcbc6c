/* verify: UNSAFE fault 1 null dereference line 7 */
#include <stdlib.h>
struct node { int value; struct node *next; };
static void show(int value, int more) { }
int main(void) {
    struct node *n = NULL;
    show(3, n->value);
    return 0;
}
