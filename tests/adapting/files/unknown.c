#include <stdlib.h>
extern int read_sensor(int port);
extern void blink(void);
unsigned __VERIFIER_nondet_uint(void);
struct sample { int value; struct sample *next; };
int main(void) {
    struct sample *all = NULL;
    int port = 3;
    while (read_sensor(port) > 0) {
        struct sample *s = malloc(sizeof *s);
        s->value = read_sensor(port + 1);
        s->next = all;
        all = s;
        blink();
        if (__VERIFIER_nondet_uint() % 3 == 1 && s->value)
            port = s->value;
    }
    while (all) {
        struct sample *s = all;
        all = all->next;
        read_sensor(s->value);
        free(s);
    }
    return 0;
}
