#include <stdlib.h>
extern int __VERIFIER_nondet_int(void);
struct node { struct node *next; };
struct node *t;
int d;
static struct node *node(struct node *t) {
    struct node *n = malloc(sizeof(struct node));
    n->next = t;
    { struct node *t = n->next; if (t) { int d = 1; if (d) n->next = t; } }
    return n;
}
int main(void) {
    struct node *n = NULL, *again = NULL;
    for (int i = 0; i < 3; i++) {
        struct node *n = node(again);
        for (int i = 0; i < 1; i++) again = n;
    }
    for (t = again; t; n = t, t = t->next) {
        struct node *again = t, *t = again->next;
        if (t) d = 1;
    }
    while (again) { struct node *n = again->next; free(again); again = n; }
    t = NULL;
    return 0;
}
