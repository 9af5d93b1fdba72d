# One jump goes over the minute in which the second used number fails: the assignment finds it open, the number is sent
# again, and the jump over the end of that window leaves it in force, since somebody has acknowledged it.
after donated-block

NPAC /clock minute=5
     200 now=5
AAAA,BBBB /downloads/acknowledge attempt=1 id=1
     200 first
CCCC /downloads/acknowledge attempt=1 id=1
     200 first since=5 status=active
NPAC /clock minute=20
     200 now=20
NPAC /blocks/assign assignment
     409 open_ports 23
BBBB /subscriptionVersionCancel id=2
     409 protected 21
BBBB /subscriptionVersionActivate id=2
     200 second attempt=2 since=20 status=sending
AAAA /downloads/acknowledge attempt=2 id=2
     200 second attempt=2 since=20 status=sending
NPAC /clock minute=34
     200 now=34
NPAC /blocks/assign assignment
     409 open_ports 23
NPAC /clock minute=900
     200 now=900
NPAC /blocks/assign assignment
     200 held due=900 since=900
CCCC /versions/2
     200 second attempt=2 since=35 status=partial-failure
AAAA,BBBB /downloads/acknowledge attempt=1 id=3
     200 held due=900 since=900
CCCC /downloads/acknowledge attempt=1 id=3
     200 held due=900 since=900 status=active
AAAA /query uri=tel:+12025337001
     200 uri=tel:+12025337001;npdi;rn=+12025330000
AAAA /query uri=tel:+12025337002
     200 uri=tel:+12025337002;npdi;rn=+12025330000
AAAA /query uri=tel:+12025337003
     200 uri=tel:+12025337003;npdi;rn=+12025550000
