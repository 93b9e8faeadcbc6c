/* refused at 0: there is no `main` */
#include <stdlib.h>
struct node { struct node *next; };
struct node *make(void) { return malloc(sizeof(struct node)); }
