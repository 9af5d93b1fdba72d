# A protective version is modified as any other, a block's version by nobody.
after held-block

BBBB /lrns lrn=2025330001
     200 lrn=2025330001 spid=BBBB
BBBB /subscriptionVersionModify id=2 lrn=2025330001
     200 second attempt=3 since=23
AAAA,CCCC /downloads/acknowledge attempt=3 id=2
     200 second attempt=3 since=23
AAAA /query uri=tel:+12025337002
     200 uri=tel:+12025337002;npdi;rn=+12025330000
BBBB /downloads/acknowledge attempt=3 id=2
     200 second attempt=3 lrn=2025330001 since=23 status=active
AAAA /query uri=tel:+12025337002
     200 uri=tel:+12025337002;npdi;rn=+12025330001

CCCC /lrns lrn=2025550001
     200 lrn=2025550001 spid=CCCC
CCCC /subscriptionVersionModify id=3 lrn=2025550001
     404 not_found 10
CCCC /subscriptionVersionModify id=3 lrn=2025330000
     404 not_found 10
BBBB /subscriptionVersionModify id=3 lrn=2025550001
     404 not_found 10
NPAC /subscriptionVersionModify id=3 lrn=2025550001
     403 unknown_carrier 1
CCCC /versions/3
     200 held since=23 status=active
