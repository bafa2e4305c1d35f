10 REM TBC: --petscii
20 PRINT "{clr}";
30 PRINT "{blk}A{wht}B{red}C{cyn}D{pur}E{grn}F{blu}G{yel}H{orng}I{brn}J{lred}K{gry1}L{gry2}M{lgrn}N{lblu}O{gry3}P{rvon}{blk}A{wht}B{red}C{cyn}D{pur}E{grn}F{blu}G{yel}H{orng}I{brn}J{lred}K{gry1}L{gry2}M{lgrn}N{lblu}O{gry3}P{rvof}{lblu}"
40 PRINT "{5B}{5C}{5D}{5E}{5F}{60}{61}{62}{63}{64}{65}{66}{67}{68}{69}{6A}{6B}{6C}{6D}{6E}{6F}{70}{71}{72}{73}{74}{75}{76}{77}{78}{79}{7A}{7B}{7C}{7D}{7E}{7F}"
50 PRINT "{yel}{A0}{A1}{A2}{A3}{A4}{A5}{A6}{A7}{A8}{A9}{AA}{AB}{AC}{AD}{AE}{AF}{B0}{B1}{B2}{B3}{B4}{B5}{B6}{B7}{B8}{B9}{BA}{BB}{BC}{BD}{BE}{BF}{C0}{C1}{C2}{C3}{C4}{C5}{C6}{C7}{C8}{C9}{CA}{CB}{CC}{CD}{CE}{CF}"
60 PRINT "{cyn}{D0}{D1}{D2}{D3}{D4}{D5}{D6}{D7}{D8}{D9}{DA}{DB}{DC}{DD}{DE}{DF}{E0}{E1}{E2}{E3}{E4}{E5}{E6}{E7}{E8}{E9}{EA}{EB}{EC}{ED}{EE}{EF}{F0}{F1}{F2}{F3}{F4}{F5}{F6}{F7}{F8}{F9}{FA}{FB}{FC}{FD}{FE}{FF}{lblu}"
70 PRINT "ABCD{3 left}{2 inst}XY{8 rght}Z{del}{del}{down}!{up}?"
80 INPUT A
90 PRINT "{swlc}Small letters, {C3}APITALS, {home}{rvon}{5 down}UP{rvof}"
100 INPUT A
110 PRINT "{swuc}{grn}012345678901234567890123456789012345678901234567890123456789012345678901234567890123456789"
120 IF A<30 A=A+1
130 IF A<30 GOTO 110
140 INPUT A
150 PRINT "{pur}{clr}THE END"
160 END
