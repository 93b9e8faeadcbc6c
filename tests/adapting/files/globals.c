#include <stdlib.h>
extern int __VERIFIER_nondet_int(void);
struct node { struct node *next; int id; };
static struct node *head, *spare = NULL;
static int count;
static int mode = 2;
const int limit = 5;
static struct node *get(void) {
    static int calls;
    calls++;
    if (spare) {
        struct node *n = spare;
        spare = NULL;
        return n;
    }
    count += 1;
    return malloc(sizeof(struct node));
}
static void push(void) {
    struct node *n = get();
    n->id = count;
    n->next = head;
    head = n;
}
static void pop(void) {
    struct node *n = head;
    head = head->next;
    if (spare == NULL)
        spare = n;
    else
        free(n);
}
static int number(void) { return 7; }
int main(void) {
    while (__VERIFIER_nondet_int()) {
        push();
        if (mode == 2 && count < limit && __VERIFIER_nondet_int())
            pop();
    }
    mode = number();
    while (head)
        pop();
    free(spare);
    return mode == 7;
}
