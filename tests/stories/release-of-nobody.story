# CCCC gives the block back, and nobody acknowledges the delete: CCCC still holds it.
after held-block

NPAC /clock minute=30
     200 now=30
CCCC /blocks/release block=2025337
     200 held attempt=2 since=30
CCCC /blocks/release block=2025337
     409 wrong_status 13
AAAA,BBBB,CCCC /downloads/10
     200 downloads=delete-of-block
NPAC /clock minute=44
     200 now=44
AAAA /versions/3
     200 held attempt=2 since=30
AAAA /query uri=tel:+12025337003
     200 uri=tel:+12025337003;npdi;rn=+12025550000
NPAC /clock minute=45
     200 now=45
AAAA /versions/3
     200 held attempt=2 since=45 status=active
AAAA,BBBB,CCCC /downloads/10
     200 downloads=[]
AAAA /query uri=tel:+12025337003
     200 uri=tel:+12025337003;npdi;rn=+12025550000
