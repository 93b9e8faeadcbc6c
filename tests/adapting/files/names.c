#include <stdlib.h>
struct node { struct node *free; int assert; };
static struct node *exit_2(struct node *bool_2) { return bool_2; }
static int abort_code(int main_2) { return main_2; }
void __VERIFIER_error_2(void) { exit(3); }
int main(void) {
    struct node *malloc_2 = malloc(sizeof *malloc_2), *NULL_2 = exit_2(malloc_2);
    malloc_2->free = NULL_2->free = NULL;
    malloc_2->assert = abort_code(3);
    if (malloc_2->assert != 3)
        __VERIFIER_error_2();
    free(malloc_2);
    return 0;
}
