# One jump goes over the end of the window: the assignment finds the earlier version failed, and makes another.
after donated-block

AAAA,BBBB /downloads/acknowledge attempt=1 id=1
     200 first
AAAA,BBBB /downloads/acknowledge attempt=1 id=2
     200 second
NPAC /clock minute=22
     200 now=22
NPAC /blocks/assign assignment
     200 held
NPAC /clock minute=2000
     200 now=2000
NPAC /blocks/assign assignment
     200 held due=2000 id=4 since=2000
CCCC /versions/3
     200 held since=37 status=failed
CCCC /versions/1
     200 first since=15 status=partial-failure
CCCC /downloads/10
     200 {"downloads":[{"action":"create","attempt":1,"cic":null,"id":1,"lrn":"2025330000","minute":0,"subject":"2025337001"},{"action":"create","attempt":1,"cic":null,"id":2,"lrn":"2025330000","minute":0,"subject":"2025337002"},{"action":"create","attempt":1,"cic":null,"id":4,"lrn":"2025550000","minute":2000,"subject":"2025337"}]}
