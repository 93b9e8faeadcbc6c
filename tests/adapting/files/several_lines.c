#include <stdlib.h>
extern int __VERIFIER_nondet_int(void);
struct node { struct node *next; int a,
              b; };
static struct node *make(int a,
                         struct node *next,
                         int b)
{
    struct node *n =
        malloc(sizeof(
            struct node));
    n->a = a,
    n->b =
        b;
    n->next
        = next;
    return
        n;
}
static int both(struct node *n)
{
    return n->a == 1 &&
           n->b == 2 &&
           n->a + n->b
           == 3;
}
int main(void)
{
    struct node *l = make(1,
                          make(2, NULL,
                               1),
                          2);
    if (both(l) &&
        !both(l->next) &&
        l->next->a > 1
        || __VERIFIER_nondet_int())
        l->a
            = l->next->a
            + 1;
    while (l != NULL &&
           both(l) ==
               both(l))
    {
        struct node *t =
            l;
        l = l
            ->next;
        free(
            t
        );
    }
    return
        0;
}
