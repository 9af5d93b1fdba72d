# Three carriers, each with a routing number, and the code of BBBB.

NPAC /carriers spid=AAAA
     200 rows=[] spid=AAAA
NPAC /carriers spid=BBBB
     200 rows=[] spid=BBBB
NPAC /carriers spid=CCCC
     200 rows=[] spid=CCCC
AAAA /lrns lrn=2025440000
     200 lrn=2025440000 spid=AAAA
BBBB /lrns lrn=2025330000
     200 lrn=2025330000 spid=BBBB
CCCC /lrns lrn=2025550000
     200 lrn=2025550000 spid=CCCC
NPAC /codes code=202533 spid=BBBB
     200 code=202533 spid=BBBB
