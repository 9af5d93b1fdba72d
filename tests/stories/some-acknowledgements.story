# Some acknowledgements make a partial failure when the window ends, and late ones make it active.
after opening

let sent port attempt=1 due=100

AAAA /subscriptionVersionNewSP-Create create due=100
     200 port due=100 phase=initial
BBBB /subscriptionVersionOldSP-Create concur due=100
     200 port due=100
NPAC /clock minute=200
     200 now=200
AAAA /subscriptionVersionActivate id=1
     200 sent since=200 status=sending
NPAC /clock minute=214
     200 now=214
CCCC /downloads/acknowledge attempt=1 id=1
     200 sent since=200 status=sending
CCCC /downloads/10
     200 downloads=[]
AAAA /downloads/10
     200 {"downloads":[{"action":"create","attempt":1,"cic":null,"id":1,"lrn":"2025440000","minute":200,"subject":"2025331234"}]}
CCCC /query uri=tel:+12025331234
     200 uri=tel:+12025331234;npdi
NPAC /clock minute=215
     200 now=215
CCCC /query uri=tel:+12025331234
     200 uri=tel:+12025331234;npdi;rn=+12025440000
CCCC /versions/1
     200 sent since=215 status=partial-failure
CCCC /downloads/10
     200 downloads=[]
AAAA /downloads/10
     200 {"downloads":[{"action":"create","attempt":1,"cic":null,"id":1,"lrn":"2025440000","minute":200,"subject":"2025331234"}]}
BBBB /downloads/10
     200 {"downloads":[{"action":"create","attempt":1,"cic":null,"id":1,"lrn":"2025440000","minute":200,"subject":"2025331234"}]}
AAAA /downloads/acknowledge attempt=1 id=1
     200 sent since=215 status=partial-failure
AAAA /downloads/10
     200 downloads=[]
BBBB /downloads/10
     200 {"downloads":[{"action":"create","attempt":1,"cic":null,"id":1,"lrn":"2025440000","minute":200,"subject":"2025331234"}]}
BBBB /downloads/acknowledge attempt=1 id=1
     200 sent since=215 status=active
AAAA /downloads/10
     200 downloads=[]
BBBB /downloads/10
     200 downloads=[]
CCCC /downloads/10
     200 downloads=[]
