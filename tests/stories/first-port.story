# The first port: created from both sides, activated, acknowledged by every carrier, and queried.

NPAC /carriers spid=AAAA
     200 rows=[] spid=AAAA
NPAC /carriers spid=BBBB
     200 rows=[] spid=BBBB
AAAA /lrns lrn=2025440000
     200 lrn=2025440000 spid=AAAA
BBBB /lrns lrn=2025330000
     200 lrn=2025330000 spid=BBBB
NPAC /codes code=202533 spid=BBBB
     200 code=202533 spid=BBBB
AAAA /subscriptionVersionNewSP-Create create
     200 port phase=initial
BBBB /subscriptionVersionOldSP-Create concur
     200 port
AAAA /subscriptionVersionActivate id=1
     200 port attempt=1 status=sending
AAAA /downloads/acknowledge attempt=1 id=1
     200 port attempt=1 status=sending
BBBB /downloads/acknowledge attempt=1 id=1
     200 port attempt=1 status=active
AAAA /query uri=tel:+12025331234
     200 uri=tel:+12025331234;npdi;rn=+12025440000
