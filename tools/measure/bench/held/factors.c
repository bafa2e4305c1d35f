#include "../dialogue.h"
int d, k, n;
int main(void) {
    for (n = 1976; n <= 2000; ++n) {
        number(n); text(" =");
        k = n; d = 2;
        do {
            if (k / d * d == k) { text(" "); number(d); k = k / d; }
            else if (d * d > k) { text(" "); number(k); break; }
            else ++d;
        } while (k > 1);
        newline();
    }
    return 0;
}
