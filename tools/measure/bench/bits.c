#include "io.h"
int d, k, n, s;
int main(void) {
    for (n = 1; n <= 500; ++n) { k = n; do { d = k - k / 2 * 2; s = s + d; k = k / 2; } while (k > 0); }
    number(s); newline(); return 0;
}
