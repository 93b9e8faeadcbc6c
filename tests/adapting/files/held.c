#include <stdlib.h>
extern int __VERIFIER_nondet_int(void);
struct node { struct node *next; int count; };
static struct node *top;
static struct node *advance(void) { struct node *n = top; top = top->next; return n; }
static int bump(struct node *n) { n->count = n->count + 1; return n->count; }
static struct node *same(struct node *n) { return n; }
int main(void) {
    struct node *a = malloc(sizeof *a), *b = malloc(sizeof *b), *c;
    int k = 1;
    a->next = b; a->count = 0;
    b->next = NULL; b->count = 0;
    top = a;
    if (top != advance() || k == 5)
        k = 3;
    c = top;
    if (a->next == same(b) && top->next == NULL)
        k = a->count + bump(a) + a->count;
    if (same(a)->next == same(b))
        k += same(a)->count * bump(same(a)->next);
    same(a)->count++;
    same(b)->next = same(NULL);
    if (c == advance())
        top = NULL;
    free(same(a));
    free(same(same(b)));
    return k;
}
