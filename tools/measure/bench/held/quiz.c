#include "../dialogue.h"
int a, b, g, p, q, r, s, w;
void line(const char *p) { text(p); newline(); }
void question(void) {
    switch (q) {
    case 1: line("FRANCE:"); line("1 LYON, 2 PARIS, 3 NICE"); a = 2; break;
    case 2: line("ITALY:"); line("1 ROME, 2 MILAN, 3 TURIN"); a = 1; break;
    case 3: line("SPAIN:"); line("1 SEVILLE, 2 BARCELONA, 3 MADRID"); a = 3; break;
    case 4: line("PORTUGAL:"); line("1 PORTO, 2 LISBON, 3 FARO"); a = 2; break;
    case 5: line("GREECE:"); line("1 ATHENS, 2 PATRAS, 3 CORINTH"); a = 1; break;
    case 6: line("TURKEY:"); line("1 ISTANBUL, 2 IZMIR, 3 ANKARA"); a = 3; break;
    case 7: line("EGYPT:"); line("1 CAIRO, 2 ALEXANDRIA, 3 LUXOR"); a = 1; break;
    case 8: line("SUDAN:"); line("1 PORT SUDAN, 2 KHARTOUM, 3 KASSALA"); a = 2; break;
    case 9: line("KENYA:"); line("1 MOMBASA, 2 KISUMU, 3 NAIROBI"); a = 3; break;
    case 10: line("UGANDA:"); line("1 KAMPALA, 2 ENTEBBE, 3 JINJA"); a = 1; break;
    case 11: line("NIGERIA:"); line("1 KANO, 2 IBADAN, 3 ABUJA"); a = 3; break;
    case 12: line("GHANA:"); line("1 KUMASI, 2 ACCRA, 3 TAMALE"); a = 2; break;
    case 13: line("MALI:"); line("1 BAMAKO, 2 TIMBUKTU, 3 GAO"); a = 1; break;
    case 14: line("SENEGAL:"); line("1 THIES, 2 DAKAR, 3 TOUBA"); a = 2; break;
    case 15: line("MOROCCO:"); line("1 FEZ, 2 CASABLANCA, 3 RABAT"); a = 3; break;
    case 16: line("ALGERIA:"); line("1 ALGIERS, 2 ORAN, 3 SETIF"); a = 1; break;
    case 17: line("TUNISIA:"); line("1 SFAX, 2 TUNIS, 3 SOUSSE"); a = 2; break;
    case 18: line("LIBYA:"); line("1 BENGHAZI, 2 MISRATA, 3 TRIPOLI"); a = 3; break;
    case 19: line("ETHIOPIA:"); line("1 ADDIS ABABA, 2 GONDAR, 3 HARAR"); a = 1; break;
    case 20: line("ZAMBIA:"); line("1 NDOLA, 2 LUSAKA, 3 KITWE"); a = 2; break;
    case 21: line("AUSTRALIA:"); line("1 SYDNEY, 2 CANBERRA, 3 PERTH"); a = 2; break;
    case 22: line("NEW ZEALAND:"); line("1 WELLINGTON, 2 AUCKLAND, 3 NAPIER"); a = 1; break;
    case 23: line("JAPAN:"); line("1 OSAKA, 2 KYOTO, 3 TOKYO"); a = 3; break;
    case 24: line("CHINA:"); line("1 BEIJING, 2 SHANGHAI, 3 CANTON"); a = 1; break;
    case 25: line("INDIA:"); line("1 BOMBAY, 2 NEW DELHI, 3 MADRAS"); a = 2; break;
    case 26: line("PAKISTAN:"); line("1 KARACHI, 2 LAHORE, 3 ISLAMABAD"); a = 3; break;
    case 27: line("NEPAL:"); line("1 KATHMANDU, 2 POKHARA, 3 PATAN"); a = 1; break;
    case 28: line("MONGOLIA:"); line("1 ERDENET, 2 ULAN BATOR, 3 DARHAN"); a = 2; break;
    case 29: line("THAILAND:"); line("1 PHUKET, 2 PATTAYA, 3 BANGKOK"); a = 3; break;
    case 30: line("VIETNAM:"); line("1 HANOI, 2 HUE, 3 DA NANG"); a = 1; break;
    case 31: line("INDONESIA:"); line("1 MEDAN, 2 JAKARTA, 3 BANDUNG"); a = 2; break;
    case 32: line("PHILIPPINES:"); line("1 CEBU, 2 DAVAO, 3 MANILA"); a = 3; break;
    case 33: line("IRAN:"); line("1 TEHRAN, 2 SHIRAZ, 3 ISFAHAN"); a = 1; break;
    case 34: line("IRAQ:"); line("1 BASRA, 2 BAGHDAD, 3 MOSUL"); a = 2; break;
    case 35: line("SYRIA:"); line("1 ALEPPO, 2 HOMS, 3 DAMASCUS"); a = 3; break;
    case 36: line("LEBANON:"); line("1 BEIRUT, 2 TRIPOLI, 3 SIDON"); a = 1; break;
    case 37: line("JORDAN:"); line("1 AQABA, 2 AMMAN, 3 PETRA"); a = 2; break;
    case 38: line("CANADA:"); line("1 TORONTO, 2 MONTREAL, 3 OTTAWA"); a = 3; break;
    case 39: line("THE UNITED STATES:"); line("1 WASHINGTON, 2 NEW YORK, 3 BOSTON"); a = 1; break;
    case 40: line("MEXICO:"); line("1 TIJUANA, 2 MEXICO CITY, 3 PUEBLA"); a = 2; break;
    case 41: line("CUBA:"); line("1 SANTIAGO, 2 CAMAGUEY, 3 HAVANA"); a = 3; break;
    case 42: line("JAMAICA:"); line("1 KINGSTON, 2 MONTEGO BAY, 3 NEGRIL"); a = 1; break;
    case 43: line("BRAZIL:"); line("1 RIO DE JANEIRO, 2 BRASILIA, 3 SAO PAULO"); a = 2; break;
    case 44: line("ARGENTINA:"); line("1 CORDOBA, 2 ROSARIO, 3 BUENOS AIRES"); a = 3; break;
    case 45: line("CHILE:"); line("1 SANTIAGO, 2 VALPARAISO, 3 ARICA"); a = 1; break;
    case 46: line("PERU:"); line("1 CUZCO, 2 LIMA, 3 NAZCA"); a = 2; break;
    case 47: line("ECUADOR:"); line("1 GUAYAQUIL, 2 CUENCA, 3 QUITO"); a = 3; break;
    case 48: line("COLOMBIA:"); line("1 BOGOTA, 2 CALI, 3 MEDELLIN"); a = 1; break;
    case 49: line("VENEZUELA:"); line("1 MARACAIBO, 2 CARACAS, 3 VALENCIA"); a = 2; break;
    case 50: line("URUGUAY:"); line("1 SALTO, 2 MALDONADO, 3 MONTEVIDEO"); a = 3; break;
    case 51: line("PARAGUAY:"); line("1 ASUNCION, 2 ENCARNACION, 3 LUQUE"); a = 1; break;
    case 52: line("NORWAY:"); line("1 BERGEN, 2 OSLO, 3 TROMSO"); a = 2; break;
    case 53: line("SWEDEN:"); line("1 MALMO, 2 UPPSALA, 3 STOCKHOLM"); a = 3; break;
    case 54: line("FINLAND:"); line("1 HELSINKI, 2 TURKU, 3 OULU"); a = 1; break;
    case 55: line("DENMARK:"); line("1 AARHUS, 2 COPENHAGEN, 3 ODENSE"); a = 2; break;
    case 56: line("ICELAND:"); line("1 AKUREYRI, 2 KEFLAVIK, 3 REYKJAVIK"); a = 3; break;
    case 57: line("IRELAND:"); line("1 DUBLIN, 2 CORK, 3 GALWAY"); a = 1; break;
    case 58: line("SCOTLAND:"); line("1 GLASGOW, 2 EDINBURGH, 3 DUNDEE"); a = 2; break;
    case 59: line("POLAND:"); line("1 KRAKOW, 2 GDANSK, 3 WARSAW"); a = 3; break;
    case 60: line("HUNGARY:"); line("1 BUDAPEST, 2 SZEGED, 3 PECS"); a = 1; break;
    case 61: line("ROMANIA:"); line("1 CLUJ, 2 BUCHAREST, 3 BRASOV"); a = 2; break;
    case 62: line("BULGARIA:"); line("1 VARNA, 2 PLOVDIV, 3 SOFIA"); a = 3; break;
    case 63: line("AUSTRIA:"); line("1 VIENNA, 2 GRAZ, 3 LINZ"); a = 1; break;
    case 64: line("SWITZERLAND:"); line("1 ZURICH, 2 BERN, 3 GENEVA"); a = 2; break;
    case 65: line("BELGIUM:"); line("1 GHENT, 2 ANTWERP, 3 BRUSSELS"); a = 3; break;
    }
}
int main(void) {
    line("THE CAPITALS OF 65 COUNTRIES"); line("TYPE 1, 2 OR 3, OR 0 TO PASS."); newline();
    do {
        q = q + 1; number(q); text(". THE CAPITAL OF "); question();
        for (;;) {
            g = input();
            if (g >= 0 && g <= 3) break;
            line("TYPE A NUMBER FROM 0 TO 3.");
        }
        if (g == a) {
            line("RIGHT"); s = s + 1; r = r + 1;
            if (r > b) b = r;
            if (r / 5 * 5 == r) { number(r); line(" IN A ROW!"); }
        } else {
            if (g == 0) text("IT IS ");
            else text("WRONG, IT IS ");
            number(a); newline(); w = w + 1; r = 0;
        }
        if (q / 10 * 10 == q) { number(s); text(" OF "); number(q); newline(); }
    } while (q < 65);
    newline(); number(s); text(" RIGHT, "); number(w); line(" WRONG"); number(b); line(" WERE RIGHT IN A ROW");
    p = s * 100 / q; number(p); line(" PERCENT");
    if (p < 50) line("TRY IT AGAIN WITH A MAP.");
    if (p >= 50 && p < 90) line("NOT BAD.");
    if (p >= 90) line("YOU HAVE TRAVELLED.");
    return 0;
}
