#include "io.h"
int a, n, r, s;
int main(void) {
    for (n = 1; n <= 300; ++n) {
        r = n;
        for (;;) { a = (r + n / r) / 2; if (a >= r) break; r = a; }
        s = s + r;
    }
    number(s); newline(); return 0;
}
