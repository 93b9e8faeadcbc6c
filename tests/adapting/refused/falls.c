int main(void) {
    int a = 1, b = 0;
    switch (a) {
    case 1: /* refused: falls through */
        b = 1;
    case 2:
        b = 2;
        break;
    }
    while (b) {
        switch (a) { /* refused: a `switch` with a `break` inside and a `continue` */
        case 1: while (a) { if (b) break; } do { b = 0; } while (a); if (b) { if (a) break; b = 1; } b = 0; break;
        default: continue;
        }
    }
    return 0;
}
