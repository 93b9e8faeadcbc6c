#include <stdlib.h>
#define NEW(type) ((type *)malloc(sizeof(type)))
#define SWAP(a, b) do { struct node *swap_ = (a); (a) = (b); (b) = swap_; } while (0)
#define MAX(a, b) ((a) > (b) ? (a) : (b))
#define IS_LEAF(n) (!(n)->left && !(n)->right)
#ifdef __GNUC__
#define likely(x) __builtin_expect(!!(x), 1)
#else
#define likely(x) (x)
#endif
extern int __VERIFIER_nondet_int(void);
struct node { struct node *left, *right; int height; };
static struct node *leaf(void) {
    struct node *n = NEW(struct node);
    n->left = n->right = NULL; n->height = 1;
    return n;
}
int main(void) {
    struct node *root = leaf();
    root->left = leaf();
    if (likely(__VERIFIER_nondet_int()))
        SWAP(root->left, root->right);
    root->height = 1 + MAX(root->left ? root->left->height : 0, root->right ? root->right->height : 0);
    if (IS_LEAF(root))
        abort();
    if (root->right)
        SWAP(root->right, root->left);
    free(root->left);
    free(root);
    return 0;
}
