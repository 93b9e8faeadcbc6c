/* verify: SAFE */
#include <stdlib.h>
struct leaf { int weight; };
struct branch { struct leaf *leaf; };
int main(void) {
    struct branch *b = malloc(sizeof *b);
    b->leaf = malloc(sizeof(struct leaf));
    b->leaf->weight = 17;
    if (b->leaf->weight * 2 > 30)
        b->leaf->weight--;
    free(b->leaf);
    free(b);
    return 0;
}
