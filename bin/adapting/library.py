"""What the adapter knows of functions of C's library. Each of `QUIET` reads its arguments, and changes no cell."""

QUIET = {
    "printf", "puts", "putchar", "fprintf", "fputs", "fputc", "putc", "fflush", "perror",
    "rand", "random", "srand", "srandom", "time", "clock", "getchar", "sleep", "usleep",
    "abs", "labs", "llabs", "atoi", "atol", "atoll", "atof", "strlen", "strcmp", "strncmp", "strcasecmp", "strncasecmp",
    "isalpha", "isdigit", "isalnum", "isspace", "isupper", "islower", "ispunct", "isprint", "toupper", "tolower",
    "sqrt", "pow", "floor", "ceil", "fabs", "getpid",
}

# They write characters into the array that is their first argument.
FILLS = {"strcpy", "strncpy", "strcat", "strncat", "sprintf", "snprintf", "fgets", "memset"}

# They end the program as `exit` or `abort` does, or as a failed assertion.
STOPS = {
    "exit": "exit", "_exit": "exit", "_Exit": "exit", "quick_exit": "exit", "abort": "abort",
    "__assert_fail": "__VERIFIER_error", "__VERIFIER_error": "__VERIFIER_error", "reach_error": "reach_error",
}

REASONS = {
    "realloc": "`realloc`", "reallocarray": "`realloc`", "memcpy": "`memcpy`", "memmove": "`memmove`",
    "aligned_alloc": "`aligned_alloc`", "strdup": "`strdup`, which allocates characters", "alloca": "`alloca`",
    "setjmp": "`setjmp`", "longjmp": "`longjmp`", "atexit": "`atexit`, which wants a function pointer",
    "signal": "`signal`, which wants a function pointer", "qsort": "`qsort`, which wants a function pointer",
    "pthread_create": "threads", "thrd_create": "threads", "fork": "`fork`",
}
