# A block's life: BBBB gives it to the pool, CCCC holds it, and gives it back.
after opening

let block held due=10 id=2 since=10

# BBBB keeps the one number that it uses; nobody serves the others.
BBBB /blocks/donate donation used=001
     200 block=2025337 ids=1
CCCC /downloads/10
     200 downloads=create-of-first
AAAA,BBBB /downloads/acknowledge attempt=1 id=1
     200 first
CCCC /downloads/acknowledge attempt=1 id=1
     200 first status=active
AAAA /subscriptionVersionNewSP-Create create tn=2025337003
     409 in_pool 8

# It is assigned to CCCC, which serves them as soon as every carrier has acknowledged.
NPAC /clock minute=10
     200 now=10
NPAC /blocks/assign assignment
     200 block
AAAA /downloads/10
     200 {"downloads":[{"action":"create","attempt":1,"cic":null,"id":2,"lrn":"2025550000","minute":10,"subject":"2025337"}]}
AAAA,BBBB /downloads/acknowledge attempt=1 id=2
     200 block
CCCC /downloads/acknowledge attempt=1 id=2
     200 block status=active
AAAA /query uri=tel:+12025337001
     200 uri=tel:+12025337001;npdi;rn=+12025330000
AAAA /query uri=tel:+12025337003
     200 uri=tel:+12025337003;npdi;rn=+12025550000

# CCCC gives it back: it is in the pool again, and BBBB keeps its number.
NPAC /clock minute=20
     200 now=20
CCCC /blocks/release block=2025337
     200 block attempt=2 since=20
AAAA,BBBB /downloads/acknowledge attempt=2 id=2
     200 block attempt=2 since=20
CCCC /downloads/acknowledge attempt=2 id=2
     200 block attempt=2 since=20 status=old
AAAA /query uri=tel:+12025337001
     200 uri=tel:+12025337001;npdi;rn=+12025330000
AAAA /query uri=tel:+12025337003
     200 uri=tel:+12025337003;npdi
