# The same in jumps: over the end of the delete that nobody acknowledges, so that the block is given back once more at
# 50, and over the end of that one, so that the first that is asked is a create.
after held-block

let delete delete-of-block attempt=3 minute=50

NPAC /clock minute=30
     200 now=30
CCCC /blocks/release block=2025337
     200 held attempt=2 since=30
NPAC /clock minute=50
     200 now=50
CCCC /blocks/release block=2025337
     200 held attempt=3 since=50
NPAC /clock minute=51
     200 now=51
AAAA /downloads/acknowledge attempt=3 id=3
     200 held attempt=3 since=50
NPAC /clock minute=66
     200 now=66
AAAA /subscriptionVersionNewSP-Create create due=70 old=CCCC tn=2025337003
     409 in_pool 8
AAAA /versions/3
     200 held attempt=3 since=65 status=old
BBBB,CCCC /downloads/10
     200 downloads=delete
AAAA /query uri=tel:+12025337003
     200 uri=tel:+12025337003;npdi
AAAA /query uri=tel:+12025337001
     200 uri=tel:+12025337001;npdi;rn=+12025330000
