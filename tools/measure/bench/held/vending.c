#include "../dialogue.h"
int c, d, k, n, s; unsigned seed = 1;
int rnd(int n) { seed = 25173u * seed + 13849u; return seed % (unsigned)n; }
void drink(void) { s = 0; d = d + 1; }
void coin(void) {
    switch (100 + 100 * s + 20 * k) {
    case 100: s = 1; break;
    case 120: s = 2; break;
    case 140: drink(); break;
    case 200: s = 2; break;
    case 220: s = 3; break;
    case 240: c = c + 5; drink(); break;
    case 300: s = 3; break;
    case 320: s = 4; break;
    case 340: c = c + 10; drink(); break;
    case 400: s = 4; break;
    case 420: drink(); break;
    case 440: c = c + 15; drink(); break;
    case 500: drink(); break;
    case 520: c = c + 5; drink(); break;
    case 540: c = c + 20; drink(); break;
    }
}
int main(void) {
    for (n = 0; n < 200; ++n) { k = rnd(3); coin(); }
    number(d); text(" DRINKS, "); number(c); text(" CENTS OF CHANGE"); newline();
    number(5 * s); text(" CENTS ARE LEFT IN IT"); newline(); return 0;
}
