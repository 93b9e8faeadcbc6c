/* verify: UNSAFE fault 6 leak line 7 */
#include <stdlib.h>
struct node { int value; struct node *next; };
static struct node *make(int value) { struct node *n = malloc(sizeof *n); n->value = value; n->next = NULL; return n; }
static int value(struct node *n) { return n->value; }
int main(void) {
    if (value(make(3)) > 2)
        exit(1);
    exit(0);
}
