#include <stdio.h>
#include <stdlib.h>
#include <string.h>
#include <time.h>
struct person { char name[16]; int age; const char *title; struct person *next; };
static void greet(const char *word, const struct person *p) {
    printf("%s %s (%d)\n", word, p->name, p->age);
}
static const char *banner = "people";
int main(void) {
    struct person *all = NULL;
    char line[20] = "x";
    int i;
    srand(time(NULL));
    for (i = 0; i < 3; i++) {
        struct person *p = malloc(sizeof *p);
        strcpy(p->name, "somebody");
        p->name[1] = 'a' + i;
        p->age = rand() % 90;
        p->title = i ? "Dr" : NULL;
        p->next = all;
        all = p;
    }
    puts(banner);
    while (all) {
        struct person *p = all;
        greet("hello", p);
        if (strcmp(p->name, line) == 0 || p->title == NULL)
            greet(p->age > 17 ? "dear" : "hi", p);
        sprintf(line, "%d", p->age + p->next->age);
        all = all->next;
        free(p);
    }
    printf("done\n");
    return strlen(line);
}
