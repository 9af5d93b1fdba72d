# A planned disconnect that nobody acknowledges: one jump goes over its release minute and its window.
after planned-disconnect

NPAC /clock minute=399
     200 now=399
NPAC /clock minute=1000
     200 now=1000
NPAC /numbers/2025331234
     200 in_force=1 open=null
CCCC /query uri=tel:+12025331234
     200 uri=tel:+12025331234;npdi;rn=+12025440000
CCCC /versions/1
     200 active attempt=2 since=415
AAAA /downloads/10
     200 downloads=[]
BBBB /downloads/10
     200 downloads=[]
CCCC /downloads/10
     200 downloads=[]
AAAA /downloads/acknowledge attempt=2 id=1
     404 not_queued 25
BBBB /downloads/acknowledge attempt=2 id=1
     404 not_queued 25
CCCC /downloads/acknowledge attempt=2 id=1
     404 not_queued 25
AAAA /subscriptionVersionDisconnect id=1
     200 active attempt=3 since=1000 status=sending
BBBB /downloads/10
     200 {"downloads":[{"action":"delete","attempt":3,"cic":null,"id":1,"lrn":null,"minute":1000,"subject":"2025331234"}]}
