#include "../dialogue.h"
int g, p, s, t, x; unsigned seed = 1;
int rnd(int n) { seed = 25173u * seed + 13849u; return seed % (unsigned)n; }
int main(void) {
    do {
        text("I THINK OF A NUMBER FROM 1 TO 100."); newline();
        x = rnd(100) + 1; t = 0;
        do {
            text("YOUR GUESS"); g = input(); t = t + 1;
            if (g < x) { text("TOO LOW"); newline(); }
            if (g > x) { text("TOO HIGH"); newline(); }
        } while (g != x);
        text("RIGHT, WITH "); number(t); text(" GUESSES"); newline();
        s = s + t; p = p + 1;
    } while (p < 10);
    number(s); text(" GUESSES FOR "); number(p); text(" NUMBERS"); newline(); return 0;
}
