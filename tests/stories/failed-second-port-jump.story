# A second port that nobody acknowledges has failed at its minute, however far the clock jumps over it, and
# waits in no queue. It is activated again.
after second-port-sent

NPAC /clock minute=900
     200 now=900
CCCC /query uri=tel:+12025331234
     200 uri=tel:+12025331234;npdi;rn=+12025440000
CCCC /versions/2
     200 onward attempt=1 since=215 status=failed
CCCC /versions/1
     200 active
AAAA /downloads/10
     200 downloads=[]
BBBB /downloads/10
     200 downloads=[]
CCCC /downloads/10
     200 downloads=[]
AAAA /downloads/acknowledge attempt=1 id=2
     404 not_queued 25
BBBB /downloads/acknowledge attempt=1 id=2
     404 not_queued 25
CCCC /downloads/acknowledge attempt=1 id=2
     404 not_queued 25
CCCC /subscriptionVersionActivate id=2
     200 onward attempt=2 since=900 status=sending
AAAA /downloads/10
     200 {"downloads":[{"action":"create","attempt":2,"cic":null,"id":2,"lrn":"2025550000","minute":900,"subject":"2025331234"}]}
CCCC /downloads/10
     200 {"downloads":[{"action":"create","attempt":2,"cic":null,"id":2,"lrn":"2025550000","minute":900,"subject":"2025331234"}]}
AAAA /downloads/acknowledge attempt=1 id=2
     404 not_queued 25
AAAA /downloads/acknowledge attempt=2 id=2
     200 onward attempt=2 since=900 status=sending
AAAA /downloads/10
     200 downloads=[]
CCCC /downloads/10
     200 {"downloads":[{"action":"create","attempt":2,"cic":null,"id":2,"lrn":"2025550000","minute":900,"subject":"2025331234"}]}
