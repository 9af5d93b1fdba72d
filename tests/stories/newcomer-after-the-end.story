# A newcomer gets nothing of what has ended, but the number as one of those in force.
after sent-at-400

NPAC /clock minute=415
     200 now=415
NPAC /carriers spid=DDDD
     200 {"rows":[{"cic":null,"lrn":"2025440000","subject":"2025331234"}],"spid":"DDDD"}
DDDD /downloads/10
     200 downloads=[]
BBBB /downloads/10
     200 {"downloads":[{"action":"create","attempt":1,"cic":null,"id":1,"lrn":"2025440000","minute":400,"subject":"2025331234"}]}
DDDD /downloads/acknowledge attempt=1 id=1
     404 not_queued 25
BBBB /downloads/acknowledge attempt=1 id=1
     200 sent since=415 status=partial-failure
CCCC /downloads/acknowledge attempt=1 id=1
     200 sent since=415 status=active
AAAA /downloads/10
     200 downloads=[]
BBBB /downloads/10
     200 downloads=[]
CCCC /downloads/10
     200 downloads=[]
DDDD /downloads/10
     200 downloads=[]
