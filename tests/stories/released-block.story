# The delete's window ends with one acknowledgement: the block is in the pool again, still donated, and the delete waits
# for the others. What is in use stays where it is.
after released-at-50

let delete delete-of-block attempt=3 minute=50

NPAC /clock minute=64
     200 now=64
AAAA /query uri=tel:+12025337003
     200 uri=tel:+12025337003;npdi;rn=+12025550000
NPAC /clock minute=65
     200 now=65
AAAA /versions/3
     200 held attempt=3 since=65 status=old
AAAA /downloads/10
     200 downloads=[]
BBBB,CCCC /downloads/10
     200 downloads=delete
AAAA /query uri=tel:+12025337003
     200 uri=tel:+12025337003;npdi
AAAA /subscriptionVersionNewSP-Create create due=70 old=CCCC tn=2025337003
     409 in_pool 8
AAAA /query uri=tel:+12025337001
     200 uri=tel:+12025337001;npdi;rn=+12025330000
BBBB /blocks/donate donation
     409 block_taken 24
