# CCCC gives the block back once more, and one carrier acknowledges the delete.
after release-of-nobody

NPAC /clock minute=50
     200 now=50
CCCC /blocks/release block=2025337
     200 held attempt=3 since=50
NPAC /clock minute=51
     200 now=51
AAAA /downloads/acknowledge attempt=3 id=3
     200 held attempt=3 since=50
