/* verify: UNSAFE fault 1 null dereference line 8 */
#include <stdlib.h>
struct node { int value; struct node *next; };
int main(void) {
    int room[4];
    struct node *n = NULL;
    int k = 20;
    room[2] += n->value;
    return 0;
}
