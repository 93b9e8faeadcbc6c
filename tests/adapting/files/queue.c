/* verify: SAFE */
#include <stdlib.h>
#include <stdbool.h>
#include <assert.h>
extern int __VERIFIER_nondet_int(void);
struct item { struct item *next; int load; };
static struct { struct item *first, *last; unsigned count; bool used; } queue;
static void enqueue(int load) {
    struct item *i = malloc(sizeof(struct item));
    i->load = load;
    i->next = 0;
    if (queue.last == NULL) queue.first = i;
    else queue.last->next = i;
    if (!queue.first) queue.first = i;
    queue.last = i; queue.count++;
    queue.used = true;
}
static bool take(void) {
    struct item *i = queue.first;
    if (!i) return false;
    queue.first = i->next;
    if (!queue.first) queue.last = NULL;
    queue.count--;
    free(i);
    return true;
}
int main(void) {
    while (__VERIFIER_nondet_int()) {
        enqueue(__VERIFIER_nondet_int());
        assert(queue.used);
        if (__VERIFIER_nondet_int()) take();
    }
    while (take()) ;
    return 0;
}
