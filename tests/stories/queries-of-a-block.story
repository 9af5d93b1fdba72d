# A number is routed by its own version, else by its block's, else it is in the pool: it was looked up, and no more.
after held-block

let away port due=23 id=4 new=AAAA old=CCCC since=23 subject=2025337003

NPAC /query uri=tel:+12025337002
     200 uri=tel:+12025337002;npdi;rn=+12025330000
NPAC /query uri=tel:+1-202-533-7999;ext=5;B=1
     200 uri=tel:+1-202-533-7999;ext=5;B=1;npdi;rn=+12025550000
NPAC /query uri=tel:+12025337003;npdi
     200 uri=tel:+12025337003;npdi
# a number is ported away from the block's holder
AAAA /subscriptionVersionNewSP-Create create due=23 old=CCCC tn=2025337003
     200 away phase=initial
CCCC /subscriptionVersionOldSP-Create concur due=23 old=CCCC tn=2025337003
     200 away
AAAA /subscriptionVersionActivate id=4
     200 away attempt=1 status=sending
NPAC /query uri=tel:+12025337003
     200 uri=tel:+12025337003;npdi;rn=+12025550000
AAAA,BBBB /downloads/acknowledge attempt=1 id=4
     200 away attempt=1 status=sending
CCCC /downloads/acknowledge attempt=1 id=4
     200 away attempt=1 status=active
NPAC /query uri=tel:+12025337003
     200 uri=tel:+12025337003;npdi;rn=+12025440000
# the used number of the donor's goes to nobody: it is given back, and is the block's
BBBB /subscriptionVersionDisconnect id=1
     200 first attempt=2 since=23
AAAA,BBBB /downloads/acknowledge attempt=2 id=1
     200 first attempt=2 since=23
CCCC /downloads/acknowledge attempt=2 id=1
     200 first attempt=2 since=23 status=old
NPAC /query uri=tel:+12025337001
     200 uri=tel:+12025337001;npdi;rn=+12025550000
# the block is given back: what has a version of its own stays where it is
CCCC /blocks/release block=2025337
     200 held attempt=2 since=23
NPAC /query uri=tel:+12025337001
     200 uri=tel:+12025337001;npdi;rn=+12025550000
AAAA,BBBB /downloads/acknowledge attempt=2 id=3
     200 held attempt=2 since=23
CCCC /downloads/acknowledge attempt=2 id=3
     200 held attempt=2 since=23 status=old
NPAC /query uri=tel:+12025337001
     200 uri=tel:+12025337001;npdi
NPAC /query uri=tel:+12025337002
     200 uri=tel:+12025337002;npdi;rn=+12025330000
NPAC /query uri=tel:+12025337003
     200 uri=tel:+12025337003;npdi;rn=+12025440000
NPAC /query uri=tel:+12025337004
     200 uri=tel:+12025337004;npdi
