/* verify: UNSAFE fault 6 leak line 7 */
#include <stdlib.h>
struct node { int value; struct node *next; };
static struct node *make(int value) { struct node *n = malloc(sizeof *n); n->value = value; n->next = NULL; return n; }
static void stop(void) { exit(0); }
int main(void) {
    if (make(3)->next == NULL)
        stop();
    return 0;
}
