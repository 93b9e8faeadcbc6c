#include <stdlib.h>
struct node { struct node *next; int value; };
struct pair { struct node *a; struct node *b; };
static struct pair both(struct node *n) { struct pair p = { n, n }; return p; } /* refused: the result of both is a struct */
static int any(int n, ...) { return n; } /* refused: any number of arguments */
static int none(struct node *n) {
    if (n) return; /* refused: a `return` without a value */
    return 1;
}
int main(void) {
    struct node *n = malloc(sizeof *n);
    int size[n->value]; /* refused: an array whose size is not a known number */
    n->other = 3; /* refused: has no field other */
    n->next = 4; /* refused: a pointer to the struct node is wanted */
    n->value = n; /* refused: a value of another type */
    missing(n); /* refused: gets a pointer */
    unknown = 3; /* refused: unknown is not declared */
    none(n, n); /* refused: none wants 1 arguments */
    return n->value;
}
