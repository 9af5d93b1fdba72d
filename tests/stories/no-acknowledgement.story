# An acknowledgement in the minute that closes the window is late: the version has failed, and may be
# activated again.
after opening

let sent port attempt=1 due=100

AAAA /subscriptionVersionNewSP-Create create due=100
     200 port due=100 phase=initial
BBBB /subscriptionVersionOldSP-Create concur due=100
     200 port due=100
NPAC /clock minute=200
     200 now=200
AAAA /subscriptionVersionActivate id=1
     200 sent since=200 status=sending
AAAA /downloads/10
     200 {"downloads":[{"action":"create","attempt":1,"cic":null,"id":1,"lrn":"2025440000","minute":200,"subject":"2025331234"}]}
BBBB /downloads/10
     200 {"downloads":[{"action":"create","attempt":1,"cic":null,"id":1,"lrn":"2025440000","minute":200,"subject":"2025331234"}]}
CCCC /downloads/10
     200 {"downloads":[{"action":"create","attempt":1,"cic":null,"id":1,"lrn":"2025440000","minute":200,"subject":"2025331234"}]}
NPAC /clock minute=215
     200 now=215
CCCC /downloads/acknowledge attempt=1 id=1
     404 not_queued 25
AAAA /downloads/10
     200 downloads=[]
BBBB /downloads/10
     200 downloads=[]
CCCC /downloads/10
     200 downloads=[]
CCCC /versions/1
     200 sent since=215 status=failed
CCCC /query uri=tel:+12025331234
     200 uri=tel:+12025331234;npdi
NPAC /clock minute=216
     200 now=216
AAAA /subscriptionVersionActivate id=1
     200 sent attempt=2 since=216 status=sending
BBBB /downloads/10
     200 {"downloads":[{"action":"create","attempt":2,"cic":null,"id":1,"lrn":"2025440000","minute":216,"subject":"2025331234"}]}
