#include "../dialogue.h"
int i, n, q, r;
int main(void) {
    for (n = 601; n <= 800; n = n + 11) {
        text("1/"); number(n); text(" = 0.");
        r = 1;
        for (i = 1; i <= 20; ++i) { r = 10 * r; q = r / n; number(q); r = r - q * n; }
        newline();
    }
    return 0;
}
