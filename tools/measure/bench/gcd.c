#include "io.h"
int a, b, i, j, r, s;
int main(void) {
    for (i = 1; i <= 40; ++i) {
        for (j = 1; j <= 40; ++j) { a = i; b = j; do { r = a - a / b * b; a = b; b = r; } while (b > 0); s = s + a; }
    }
    number(s); newline(); return 0;
}
