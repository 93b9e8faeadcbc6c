#include <stdlib.h>
#include "there_is_none.h" /* refused: the preprocessor says */
int main(void) { return 0; }
