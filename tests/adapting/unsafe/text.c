/* verify: UNSAFE fault 1 null dereference line 7 */
#include <stdlib.h>
#include <string.h>
struct node { char name[8]; struct node *next; };
int main(void) {
    struct node *n = NULL;
    strcpy(n->name, "a");
    return 0;
}
