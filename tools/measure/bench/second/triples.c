#include "../dialogue.h"
int a, b, c, s;
int main(void) {
    for (a = 1; a <= 20; ++a) {
        for (b = a; b <= 20; ++b) {
            s = a * a + b * b;
            for (c = b; c * c < s; ++c) ;
            if (c * c == s) { number(a); text(" "); number(b); text(" "); number(c); newline(); }
        }
    }
    return 0;
}
