#include <stdlib.h>
extern int __VERIFIER_nondet_int(void);
struct node { struct node *left, *right; int depth; };
static struct node *join(struct node *l, int depth, struct node *r) {
    struct node *n = malloc(sizeof(*n));
    n->left = l; n->right = r; n->depth = depth;
    return n;
}
static int depth(struct node *n) { return n ? n->depth : 0; }
static int larger(int a, int b) { return a > b ? a : b; }
static struct node *leaf(void) { return join(NULL, 1, NULL); }
static void drop(struct node *n) {
    if (n->left) free(n->left);
    if (n->right) free(n->right);
    free(n);
}
int main(void) {
    struct node *t = join(leaf(), larger(depth(NULL), 1) + 1, __VERIFIER_nondet_int() ? leaf() : NULL);
    t->depth = larger(depth(t->left), depth(t->right));
    if (depth(t->left) == depth(t->right))
        t->left->depth = t->right->depth + depth(t);
    drop(t);
    return larger(larger(1, 2), 3);
}
