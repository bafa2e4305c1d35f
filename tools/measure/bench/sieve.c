#include "io.h"
int b, d, e, m, n, r, w;
int main(void) {
    number(2); newline();
    for (b = 3; b < 1000; b = b + 30) {
        e = b + 28; w = 0;
        for (d = 3; d * d <= e; d = d + 2) {
            m = (b + d - 1) / d * d;
            if (m < d * d) m = d * d;
            if (m / 2 * 2 == m) m = m + d;
            for (n = b; n <= e; n = n + 2) {
                r = w - w / 2 * 2; w = w / 2;
                if (n == m) { r = 1; m = m + 2 * d; }
                if (r == 1) w = w + 16384;
            }
        }
        for (n = b; n <= e; n = n + 2) { if (w / 2 * 2 == w) { number(n); newline(); } w = w / 2; }
    }
    return 0;
}
