/* verify: UNSAFE fault 1 null dereference line 8 */
#include <stdlib.h>
struct node { int values[3]; struct node *next; };
int main(void) {
    int room[10];
    struct node *n = NULL;
    room[3] = 1;
    room[4] = room[n->values[1]];
    return 0;
}
