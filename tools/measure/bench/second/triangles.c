#include "../io.h"
int a, b, c, n;
int main(void) {
    for (a = 1; a <= 12; ++a) {
        for (b = 1; b <= 12; ++b) {
            for (c = 1; c <= 12; ++c) if (a + b > c && b + c > a && c + a > b) ++n;
        }
    }
    number(n); newline(); return 0;
}
