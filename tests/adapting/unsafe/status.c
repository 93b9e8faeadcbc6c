/* verify: UNSAFE fault 1 null dereference line 6 */
#include <stdlib.h>
struct node { int count; struct node *next; };
int main(void) {
    struct node *n = NULL;
    exit(n->count);
}
