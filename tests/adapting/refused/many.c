#include <stdlib.h>
union both { int a; struct node *b; };
struct node { struct node *next; union both both; /* refused: a union */
    void (*visit)(struct node *); /* refused: a function pointer */
    struct node **last; /* refused: a pointer to a pointer */
    struct node *table[4]; /* refused: an array of pointers */
    void *more; /* refused: a `void` pointer */
};
static void visit(struct node *n) { n->next = 0; }
int main(void) {
    struct node *n = malloc(sizeof *n), *m;
    int i = 3, *p = &i; /* refused: a pointer to a number */
    struct node **q = &n; /* refused: `&` of a variable or field */
    m = n + 1; /* refused: pointer arithmetic */
    n++; /* refused: pointer arithmetic */
    n->visit(n); /* refused: a call through a function pointer */
    visit(&*n); /* refused: `&` of a variable or field */
    goto end; /* refused: `goto` */
end:
    if (n > m) /* refused: an order of pointers */
        i = (int)(n - m); /* refused: pointer arithmetic */
    return i;
}
