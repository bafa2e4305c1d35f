#include "../dialogue.h"
int a, b, n, q, r;
int main(void) {
    for (n = 9900; n <= 10000; n = n + 2) {
        a = 31416; b = n;
        do { q = a / b; number(q); text(" "); r = a - q * b; a = b; b = r; } while (b > 0);
        newline();
    }
    return 0;
}
