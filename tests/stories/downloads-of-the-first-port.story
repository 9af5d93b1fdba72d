# The first port's broadcast in the queue of each carrier, until that carrier has acknowledged it.

NPAC /carriers spid=AAAA
     200 rows=[] spid=AAAA
NPAC /carriers spid=BBBB
     200 rows=[] spid=BBBB
AAAA /lrns lrn=2025440000
     200 lrn=2025440000 spid=AAAA
BBBB /lrns lrn=2025330000
     200 lrn=2025330000 spid=BBBB
NPAC /codes code=202533 spid=BBBB
     200 code=202533 spid=BBBB
AAAA /subscriptionVersionNewSP-Create create
     200 port phase=initial
BBBB /subscriptionVersionOldSP-Create concur
     200 port
BBBB /downloads/10
     200 downloads=[]
AAAA /subscriptionVersionActivate id=1
     200 port attempt=1 status=sending
BBBB /downloads/10
     200 {"downloads":[{"action":"create","attempt":1,"cic":null,"id":1,"lrn":"2025440000","minute":0,"subject":"2025331234"}]}
AAAA /downloads/1
     200 {"downloads":[{"action":"create","attempt":1,"cic":null,"id":1,"lrn":"2025440000","minute":0,"subject":"2025331234"}]}
AAAA /downloads/acknowledge attempt=1 id=1
     200 port attempt=1 status=sending
AAAA /downloads/10
     200 downloads=[]
BBBB /downloads/100
     200 {"downloads":[{"action":"create","attempt":1,"cic":null,"id":1,"lrn":"2025440000","minute":0,"subject":"2025331234"}]}
BBBB /downloads/acknowledge attempt=1 id=1
     200 port attempt=1 status=active
BBBB /downloads/10
     200 downloads=[]
