/* verify: UNSAFE fault 3 dangling dereference line 8 */
#include <stdio.h>
#include <stdlib.h>
struct node { int value; struct node *next; };
int main(void) {
    struct node *n = malloc(sizeof *n);
    free(n);
    printf("%d\n", n->value);
    return 0;
}
