#include <stdlib.h>
struct small { struct small *next; };
struct large { struct large *next; int more; };
int main(void) {
    struct large *l = malloc(sizeof(struct small)); /* refused: a pointer to the struct large is wanted */
    struct small *s = (struct small *)malloc(sizeof(struct large)); /* refused: another struct than its cast's */
    l = (struct large *)s; /* refused: a pointer to the struct large is wanted */
    if (l == s) /* refused: pointers to different structs */
        return 1;
    return 0;
}
