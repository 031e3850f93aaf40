/* HOLD says where an expression has not the value that is expected, and notes it in `wrong`. Valid in C and in C++. */
#include <stdio.h>

#define HOLD(given, expected) hold(#given, (long long)(given), expected)

static int wrong;

static void hold(const char *what, long long given, long long expected) {
    if (given == expected) return;
    printf("%s is %lld, not %lld\n", what, given, expected);
    wrong = 1;
}
