# Queues of several downloads: so many as are asked for, by minute and then by id, those that a newcomer finds, and
# what the end of a broadcast's window leaves of them.
after opening

let second port cic=0288 due=5 id=2 subject=2025331235

AAAA /subscriptionVersionNewSP-Create create
     200 port phase=initial
BBBB /subscriptionVersionOldSP-Create concur
     200 port
AAAA /subscriptionVersionActivate id=1
     200 port attempt=1 status=sending
BBBB /downloads/acknowledge attempt=1 id=1
     200 port attempt=1 status=sending
NPAC /clock minute=5
     200 now=5
AAAA /subscriptionVersionNewSP-Create create cic=0288 due=5 tn=2025331235
     200 second phase=initial since=5
BBBB /subscriptionVersionOldSP-Create concur due=5 tn=2025331235
     200 second since=5
AAAA /subscriptionVersionActivate id=2
     200 second attempt=1 since=5 status=sending

# The first of two, both, and the second alone where the first is acknowledged.
CCCC /downloads/1
     200 {"downloads":[{"action":"create","attempt":1,"cic":null,"id":1,"lrn":"2025440000","minute":0,"subject":"2025331234"}]}
CCCC /downloads/2
     200 {"downloads":[{"action":"create","attempt":1,"cic":null,"id":1,"lrn":"2025440000","minute":0,"subject":"2025331234"},{"action":"create","attempt":1,"cic":"0288","id":2,"lrn":"2025440000","minute":5,"subject":"2025331235"}]}
CCCC /downloads/100
     200 {"downloads":[{"action":"create","attempt":1,"cic":null,"id":1,"lrn":"2025440000","minute":0,"subject":"2025331234"},{"action":"create","attempt":1,"cic":"0288","id":2,"lrn":"2025440000","minute":5,"subject":"2025331235"}]}
BBBB /downloads/2
     200 {"downloads":[{"action":"create","attempt":1,"cic":"0288","id":2,"lrn":"2025440000","minute":5,"subject":"2025331235"}]}

# A newcomer finds what is still open.
NPAC /carriers spid=DDDD
     200 rows=[] spid=DDDD
DDDD /downloads/3
     200 {"downloads":[{"action":"create","attempt":1,"cic":null,"id":1,"lrn":"2025440000","minute":0,"subject":"2025331234"},{"action":"create","attempt":1,"cic":"0288","id":2,"lrn":"2025440000","minute":5,"subject":"2025331235"}]}

# At 20 both windows have ended. The first broadcast, which somebody acknowledged, stays in the queues of the others; the
# second, which nobody did, is withdrawn from all.
NPAC /clock minute=20
     200 now=20
CCCC /downloads/2
     200 {"downloads":[{"action":"create","attempt":1,"cic":null,"id":1,"lrn":"2025440000","minute":0,"subject":"2025331234"}]}
BBBB /downloads/2
     200 downloads=[]
AAAA /downloads/acknowledge attempt=1 id=1
     200 port attempt=1 since=15 status=partial-failure
CCCC /downloads/acknowledge attempt=1 id=1
     200 port attempt=1 since=15 status=partial-failure
DDDD /downloads/2
     200 {"downloads":[{"action":"create","attempt":1,"cic":null,"id":1,"lrn":"2025440000","minute":0,"subject":"2025331234"}]}
DDDD /downloads/acknowledge attempt=1 id=1
     200 port attempt=1 since=20 status=active

# In one minute the lesser id comes first, whatever was sent first. A delete has no routing.
AAAA /subscriptionVersionActivate id=2
     200 second attempt=2 since=20 status=sending
AAAA /subscriptionVersionDisconnect id=1
     200 port attempt=2 since=20 status=sending
DDDD /downloads/1
     200 {"downloads":[{"action":"delete","attempt":2,"cic":null,"id":1,"lrn":null,"minute":20,"subject":"2025331234"}]}
DDDD /downloads/10
     200 {"downloads":[{"action":"delete","attempt":2,"cic":null,"id":1,"lrn":null,"minute":20,"subject":"2025331234"},{"action":"create","attempt":2,"cic":"0288","id":2,"lrn":"2025440000","minute":20,"subject":"2025331235"}]}
