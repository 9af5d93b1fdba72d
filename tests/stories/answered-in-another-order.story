# Broadcasts of one minute that are answered in another order than they were sent, before any queue is read.
after opening

let second port id=2 subject=2025331235
let third port id=3 subject=2025331236
let fourth port id=4 subject=2025331237

AAAA /subscriptionVersionNewSP-Create create
     200 port phase=initial
BBBB /subscriptionVersionOldSP-Create concur
     200 port
AAAA /subscriptionVersionNewSP-Create create tn=2025331235
     200 second phase=initial
BBBB /subscriptionVersionOldSP-Create concur tn=2025331235
     200 second
AAAA /subscriptionVersionNewSP-Create create tn=2025331236
     200 third phase=initial
BBBB /subscriptionVersionOldSP-Create concur tn=2025331236
     200 third
AAAA /subscriptionVersionNewSP-Create create tn=2025331237
     200 fourth phase=initial
BBBB /subscriptionVersionOldSP-Create concur tn=2025331237
     200 fourth
AAAA /subscriptionVersionActivate id=3
     200 third attempt=1 status=sending
AAAA /subscriptionVersionActivate id=1
     200 port attempt=1 status=sending
AAAA /subscriptionVersionActivate id=2
     200 second attempt=1 status=sending

# The first that was sent is answered by all, then the last.
AAAA,BBBB /downloads/acknowledge attempt=1 id=3
     200 third attempt=1 status=sending
CCCC /downloads/acknowledge attempt=1 id=3
     200 third attempt=1 status=active
AAAA,BBBB /downloads/acknowledge attempt=1 id=2
     200 second attempt=1 status=sending
CCCC /downloads/acknowledge attempt=1 id=2
     200 second attempt=1 status=active
CCCC /downloads/acknowledge attempt=1 id=3
     404 not_queued 25

# One is left. One that is sent now stands behind it, and is answered first.
AAAA /subscriptionVersionActivate id=4
     200 fourth attempt=1 status=sending
BBBB /downloads/10
     200 {"downloads":[{"action":"create","attempt":1,"cic":null,"id":1,"lrn":"2025440000","minute":0,"subject":"2025331234"},{"action":"create","attempt":1,"cic":null,"id":4,"lrn":"2025440000","minute":0,"subject":"2025331237"}]}
AAAA,BBBB /downloads/acknowledge attempt=1 id=4
     200 fourth attempt=1 status=sending
CCCC /downloads/acknowledge attempt=1 id=4
     200 fourth attempt=1 status=active
AAAA,BBBB,CCCC /downloads/10
     200 {"downloads":[{"action":"create","attempt":1,"cic":null,"id":1,"lrn":"2025440000","minute":0,"subject":"2025331234"}]}
AAAA,BBBB /downloads/acknowledge attempt=1 id=1
     200 port attempt=1 status=sending
CCCC /downloads/acknowledge attempt=1 id=1
     200 port attempt=1 status=active
AAAA,BBBB,CCCC /downloads/10
     200 downloads=[]
