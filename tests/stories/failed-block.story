# Nobody acknowledges the version of a block: it has failed and stays so, nothing of it is open, and the block is assigned
# anew, to whomever.
after donated-block

let taken held due=40 id=4 lrn=2025440000 new=AAAA since=40

AAAA,BBBB /downloads/acknowledge attempt=1 id=1
     200 first
AAAA,BBBB /downloads/acknowledge attempt=1 id=2
     200 second
CCCC /downloads/acknowledge attempt=1 id=1
     200 first status=active
CCCC /downloads/acknowledge attempt=1 id=2
     200 second status=active
NPAC /clock minute=22
     200 now=22
NPAC /blocks/assign assignment
     200 held
NPAC /clock minute=36
     200 now=36
CCCC /versions/3
     200 held
NPAC /blocks/assign assignment
     409 block_taken 24
NPAC /clock minute=37
     200 now=37
CCCC /versions/3
     200 held since=37 status=failed
AAAA,BBBB,CCCC /downloads/10
     200 downloads=[]
CCCC /downloads/acknowledge attempt=1 id=3
     404 not_queued 25
CCCC,NPAC /blocks/release block=2025337
     409 wrong_status 13
CCCC /subscriptionVersionActivate id=3
     404 not_found 10
CCCC /subscriptionVersionCancel id=3
     404 not_found 10
AAAA /query uri=tel:+12025337003
     200 uri=tel:+12025337003;npdi
AAAA /subscriptionVersionNewSP-Create create due=60 old=CCCC tn=2025337003
     409 in_pool 8
BBBB /blocks/donate donation
     409 block_taken 24
NPAC /clock minute=40
     200 now=40
NPAC /blocks/assign assignment holder=AAAA lrn=2025440000
     200 taken
CCCC /versions/3
     200 held since=37 status=failed
AAAA,BBBB /downloads/acknowledge attempt=1 id=4
     200 taken
CCCC /downloads/acknowledge attempt=1 id=4
     200 taken status=active
BBBB /query uri=tel:+12025337003
     200 uri=tel:+12025337003;npdi;rn=+12025440000
# the holder is that of the last version
CCCC /blocks/release block=2025337
     403 not_yours 11
AAAA /blocks/release block=2025337
     200 taken attempt=2
