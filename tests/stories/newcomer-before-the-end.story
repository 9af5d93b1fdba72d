# A newcomer gets what is still open.
after sent-at-400

NPAC /clock minute=414
     200 now=414
NPAC /carriers spid=DDDD
     200 rows=[] spid=DDDD
DDDD /downloads/10
     200 {"downloads":[{"action":"create","attempt":1,"cic":null,"id":1,"lrn":"2025440000","minute":400,"subject":"2025331234"}]}
DDDD /downloads/acknowledge attempt=1 id=1
     200 sent since=400 status=sending
DDDD /downloads/10
     200 downloads=[]
BBBB /downloads/10
     200 {"downloads":[{"action":"create","attempt":1,"cic":null,"id":1,"lrn":"2025440000","minute":400,"subject":"2025331234"}]}
