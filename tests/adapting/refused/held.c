#include <stdlib.h>
extern int __VERIFIER_nondet_int(void);
struct node { struct node *next; };
static struct node *make(void) { struct node *n = malloc(sizeof *n); n->next = NULL; return n; }
static int length(struct node *n) { int k = 0; while (n) { n = n->next; k++; } return k; }
static int first(struct node *n) { struct node *a = n; while (a) a = a->next; free(n); return 1; }
int main(void) {
    int k = first(make());
    return length(make()) + k; /* refused: an argument of length that no variable holds */
}
