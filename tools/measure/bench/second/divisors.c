#include "../dialogue.h"
int d, n, p, r, s;
int main(void) {
    for (n = 2; n <= 60; ++n) {
        s = 1;
        for (d = 2; d <= n / 2; ++d) if (n / d * d == n) s = s + d;
        if (s == n) { number(n); text(" IS PERFECT"); newline(); }
        if (s > n) r = r + 1;
        if (s < n) p = p + 1;
    }
    number(r); text(" ARE RICH, "); number(p); text(" ARE POOR"); newline(); return 0;
}
