/* verify: SAFE */
#include <stdlib.h>
#include <stdbool.h>
extern int __VERIFIER_nondet_int(void);
struct node { struct node *next; int value; };
static bool empty(struct node *l) { return !l; }
static bool full(struct node *l) { return l && l->next && l->next->next; }
static bool either(struct node *a, struct node *b) { return empty(a) || empty(b); }
static struct node *id(struct node *l) { return l; }
int main(void) {
    struct node *l = NULL, *n;
    bool done = false;
    while (!done && !full(l)) {
        n = malloc(sizeof(struct node));
        n->value = 1;
        n->next = l;
        l = n;
        done = __VERIFIER_nondet_int() || either(l, id(l)->next);
        if (!(done == false) && id(l)->value == 1)
            break;
    }
    int count = empty(l) ? 0 : 1;
    if (count == 1 && (n = id(l)) != NULL && n->value == 1)
        n->value = 2;
    while ((n = l) != NULL) {
        l = n->next;
        free(n);
    }
    return empty(l) && !full(l);
}
