#include "io.h"
int a, b, c, k;
int main(void) {
    for (k = 0; k < 30; ++k) { a = 0; b = 1; do { number(a); newline(); c = a + b; a = b; b = c; } while (a < 20000); }
    return 0;
}
