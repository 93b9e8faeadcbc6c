#include <stdlib.h>
extern int __VERIFIER_nondet_int(void);
typedef struct tree { int key; struct tree *left, *right, *parent; } tree;
static tree *tree_new(int key, tree *parent) {
    tree *t = calloc(1, sizeof(tree));
    if (!t) exit(1);
    t->key = key;
    t->parent = parent;
    return t;
}
static tree *tree_insert(tree *root, int key) {
    tree *at = root, *last = NULL;
    while (at) {
        last = at;
        if (key == at->key) return root;
        at = key < at->key ? at->left : at->right;
    }
    at = tree_new(key, last);
    if (!last) return at;
    if (key < last->key) last->left = at; else last->right = at;
    return root;
}
static tree *tree_min(tree *t) { while (t && t->left) t = t->left; return t; }
static void tree_clear(tree *t) {
    while (t) {
        if (t->left) { t = t->left; continue; }
        if (t->right) { t = t->right; continue; }
        tree *up = t->parent;
        if (up) { if (up->left == t) up->left = NULL; else up->right = NULL; }
        free(t);
        t = up;
    }
}
int main(void) {
    tree *root = NULL, *least;
    int n = 0;
    do {
        root = tree_insert(root, __VERIFIER_nondet_int());
    } while (n++ < 5 && __VERIFIER_nondet_int());
    least = tree_min(root);
    if (least && least->key > root->key) abort();
    tree_clear(root);
    return 0;
}
