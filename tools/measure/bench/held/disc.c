#include "../io.h"
int n, r, x, y;
int main(void) {
    r = 10;
    for (y = -r; y <= r; ++y) {
        for (x = -r; x <= r; ++x) {
            if (x * x + y * y <= r * r) { send('*'); ++n; }
            else send('.');
        }
        newline();
    }
    number(n); newline(); return 0;
}
