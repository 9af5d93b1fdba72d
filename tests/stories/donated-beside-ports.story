# A number of a block that is being ported: it refuses the donation while its version is open and none is in force; in
# force it counts as in use, and an open version beside it does no harm. One that was given back is in use no more.
after opening

let ported port subject=2025337005
let onward port due=100 id=2 lrn=2025550000 new=CCCC old=AAAA subject=2025337005
let used first due=30 id=3 since=30

AAAA /subscriptionVersionNewSP-Create create tn=2025337005
     200 ported phase=initial
BBBB /blocks/donate donation used=[]
     409 open_ports 23
BBBB /subscriptionVersionOldSP-Create concur tn=2025337005
     200 ported
AAAA /subscriptionVersionActivate id=1
     200 ported attempt=1 status=sending
BBBB /blocks/donate donation used=[]
     409 open_ports 23
NPAC /clock minute=15
     200 now=15
BBBB /blocks/donate donation used=[]
     409 open_ports 23
AAAA /versions/1
     200 ported attempt=1 since=15 status=failed
AAAA /subscriptionVersionActivate id=1
     200 ported attempt=2 since=15 status=sending
AAAA,BBBB /downloads/acknowledge attempt=2 id=1
     200 ported attempt=2 since=15 status=sending
CCCC /downloads/acknowledge attempt=2 id=1
     200 ported attempt=2 since=15 status=active
CCCC /subscriptionVersionNewSP-Create due=100 lrn=2025550000 new=CCCC old=AAAA tn=2025337005
     200 onward phase=initial since=15
AAAA /subscriptionVersionDisconnect id=1
     409 busy 12
NPAC /clock minute=30
     200 now=30
BBBB /blocks/donate donation used=100..199
     409 contaminated 22
BBBB /blocks/donate donation used=001,005
     200 block=2025337 ids=3
AAAA /versions/3
     200 used
AAAA /query uri=tel:+12025337005
     200 uri=tel:+12025337005;npdi;rn=+12025440000
CCCC /subscriptionVersionCancel id=2
     200 onward since=30 status=canceled
AAAA,BBBB /downloads/acknowledge attempt=1 id=3
     200 used
CCCC /downloads/acknowledge attempt=1 id=3
     200 used status=active
NPAC /blocks/assign assignment
     200 held due=30 id=4 since=30

# its provider gives it back: it is no more than the others of the block, and in the pool
AAAA /subscriptionVersionDisconnect id=1
     200 ported attempt=3 since=30 status=sending
AAAA,BBBB /downloads/acknowledge attempt=3 id=1
     200 ported attempt=3 since=30 status=sending
CCCC /downloads/acknowledge attempt=3 id=1
     200 ported attempt=3 since=30 status=old
CCCC /subscriptionVersionNewSP-Create create due=30 lrn=2025550000 new=CCCC tn=2025337005
     409 in_pool 8
