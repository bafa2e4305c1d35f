#include "../dialogue.h"
int c, l, n, r, s, x;
void right(void) { l = 2 * l + x; x = r - r / 2 * 2; r = r / 2; }
void left(void) { r = 2 * r + x; x = l - l / 2 * 2; l = l / 2; }
void step(void) {
    switch (100 * s + 50 * x) {
    case 100: x = 1; s = 2; right(); break;
    case 150: x = 1; s = 2; left(); break;
    case 200: x = 1; s = 1; left(); break;
    case 250: x = 0; s = 3; left(); break;
    case 300: x = 1; s = 0; break;
    case 350: x = 1; s = 4; left(); break;
    case 400: x = 1; right(); break;
    case 450: x = 0; s = 1; right(); break;
    }
}
int main(void) {
    for (s = 1; s; ) { n = n + 1; step(); }
    number(n); text(" STEPS"); newline();
    while (l + r + x != 0) { c = c + x; x = l - l / 2 * 2 + r - r / 2 * 2; l = l / 2; r = r / 2; }
    number(c); text(" ONES"); newline(); return 0;
}
