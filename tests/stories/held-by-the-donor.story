# The donor may hold its own block, as any carrier.
after opening

let block held due=0 id=1 lrn=2025330000 new=BBBB since=0
let away port id=2 phase=initial subject=2025337003

BBBB /blocks/donate donation used=[]
     200 block=2025337 ids=[]
NPAC /blocks/assign assignment holder=BBBB lrn=2025330000
     200 block
AAAA /subscriptionVersionNewSP-Create create tn=2025337003
     409 in_pool 8
AAAA,BBBB /downloads/acknowledge attempt=1 id=1
     200 block
CCCC /downloads/acknowledge attempt=1 id=1
     200 block status=active
CCCC /query uri=tel:+12025337003
     200 uri=tel:+12025337003;npdi;rn=+12025330000
AAAA /subscriptionVersionNewSP-Create create tn=2025337003
     200 away
BBBB /blocks/release block=2025337
     409 open_ports 23
AAAA /subscriptionVersionCancel id=2
     200 away phase=null status=canceled
BBBB /blocks/release block=2025337
     200 block attempt=2
