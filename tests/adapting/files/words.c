/* verify: SAFE */
#include <stdlib.h>
struct node { struct node *volatile next; };
static inline __attribute__((unused)) struct node *make(register struct node *const next) {
    struct node *restrict n = (struct node *)malloc((sizeof(struct node)));
    if (n == (void *)0)
        exit(1);
    ((n)->next) = (next);
    return (n);
}
int unused(int, char);
void drop(struct node *);
void drop(struct node *n) { (void)0; free((void *)(n)); }
int main(int argc, char *argv[]) {
    auto struct node *l = NULL;
    (void)argc;
    for (int i = 0; i < argc; ++i) { l = make(l); }
    while (l != 0) {
        struct node *t = (l->next);
        (void)drop(l);
        l = t;
    }
    ;
    return (EXIT_SUCCESS);
}
