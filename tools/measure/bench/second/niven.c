#include "../io.h"
int k, n, s;
int main(void) {
    for (k = 1; k <= 200; ++k) {
        n = k; s = 0;
        do { s = s + n - n / 10 * 10; n = n / 10; } while (n > 0);
        if (k / s * s == k) { number(k); newline(); }
    }
    return 0;
}
