/* verify: SAFE */
#include <stdlib.h>
#include <string.h>
extern int __VERIFIER_nondet_int(void);
struct tree { struct tree *left, *right; int seen; double mass; };
static struct tree *make(void) { return calloc(1, sizeof(struct tree)); }
int main(void) {
    struct tree *root = make();
    root->left = calloc(sizeof(struct tree), 1);
    struct tree *other = (struct tree *)calloc(1, sizeof *other);
    root->right = other;
    if (root->left->left == NULL && !root->seen)
        root->left->seen = 1;
    if (__VERIFIER_nondet_int()) {
        free(root->left);
        memset(root, 0, sizeof(*root));
        root->left = make();
        root->right = other;
    }
    free(root->left);
    free(root->right);
    free(root);
    return 0;
}
