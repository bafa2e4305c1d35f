#include "../dialogue.h"
int d, f, m, w, y;
void february(void) {
    d = 28;
    if (y / 4 * 4 != y) return;
    if (y / 100 * 100 != y) d = 29;
    if (y / 400 * 400 == y) d = 29;
}
int main(void) {
    w = 4;
    for (y = 1970; y < 2000; ++y) {
        for (m = 1; m <= 12; ++m) {
            d = 31;
            if (m == 4) d = 30;
            if (m == 6) d = 30;
            if (m == 9) d = 30;
            if (m == 11) d = 30;
            if (m == 2) february();
            f = w + 12;
            if (f - f / 7 * 7 == 5) { number(m); text("/"); number(y); newline(); }
            w = w + d - (w + d) / 7 * 7;
        }
    }
    return 0;
}
