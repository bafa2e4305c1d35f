#include "io.h"
int d, k, n, s;
int main(void) {
    for (k = 1; k <= 1000; ++k) { n = k; do { d = n - n / 10 * 10; s = s + d; n = n / 10; } while (n > 0); }
    number(s); newline(); return 0;
}
