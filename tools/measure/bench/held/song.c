#include "../dialogue.h"
int d;
void line(const char *p) { text(p); newline(); }
void ordinal(void) {
    switch (d) {
    case 1: text("FIRST"); break;
    case 2: text("SECOND"); break;
    case 3: text("THIRD"); break;
    case 4: text("FOURTH"); break;
    case 5: text("FIFTH"); break;
    case 6: text("SIXTH"); break;
    case 7: text("SEVENTH"); break;
    case 8: text("EIGHTH"); break;
    case 9: text("NINTH"); break;
    case 10: text("TENTH"); break;
    case 11: text("ELEVENTH"); break;
    case 12: text("TWELFTH"); break;
    }
}
void gifts(void) {
    switch (d) {
    case 12: line("TWELVE DRUMMERS DRUMMING,");
    case 11: line("ELEVEN PIPERS PIPING,");
    case 10: line("TEN LORDS A-LEAPING,");
    case 9: line("NINE LADIES DANCING,");
    case 8: line("EIGHT MAIDS A-MILKING,");
    case 7: line("SEVEN SWANS A-SWIMMING,");
    case 6: line("SIX GEESE A-LAYING,");
    case 5: line("FIVE GOLD RINGS,");
    case 4: line("FOUR CALLING BIRDS,");
    case 3: line("THREE FRENCH HENS,");
    case 2: line("TWO TURTLE DOVES,"); text("AND ");
    case 1: text("A PARTRIDGE IN A PEAR TREE");
    }
}
int main(void) {
    for (d = 1; d <= 12; ++d) {
        number(d); text(". ON THE "); ordinal(); line(" DAY OF CHRISTMAS MY TRUE LOVE GAVE TO ME");
        gifts(); line("."); newline();
    }
    return 0;
}
