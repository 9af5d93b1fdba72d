# The holder of a block gives it back, or the administrator does it; no other does, the donor neither.
after held-block

let again held due=23 id=4 since=23

AAAA,BBBB /blocks/release block=2025337
     403 not_yours 11
ZZZZ /blocks/release block=2025337
     403 unknown_carrier 1
NPAC /blocks/release block=2025337
     200 held attempt=2 since=23
AAAA,BBBB /downloads/acknowledge attempt=2 id=3
     200 held attempt=2 since=23
CCCC /downloads/acknowledge attempt=2 id=3
     200 held attempt=2 since=23 status=old
CCCC,NPAC /blocks/release block=2025337
     409 wrong_status 13
AAAA /blocks/release block=2025337
     403 not_yours 11
NPAC /blocks/assign assignment
     200 again
AAAA,BBBB /downloads/acknowledge attempt=1 id=4
     200 again
CCCC /downloads/acknowledge attempt=1 id=4
     200 again status=active
CCCC /blocks/release block=2025337
     200 again attempt=2
CCCC /versions/3
     200 held attempt=2 since=23 status=old
