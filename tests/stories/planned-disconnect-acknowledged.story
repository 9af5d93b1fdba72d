# A planned disconnect that every carrier acknowledges, the one too that registered before the release.
after planned-disconnect

NPAC /carriers spid=DDDD
     200 {"rows":[{"cic":null,"lrn":"2025440000","subject":"2025331234"}],"spid":"DDDD"}
NPAC /clock minute=401
     200 now=401
AAAA /downloads/acknowledge attempt=2 id=1
     200 active attempt=2 since=400 status=sending
BBBB /downloads/acknowledge attempt=2 id=1
     200 active attempt=2 since=400 status=sending
CCCC /downloads/acknowledge attempt=2 id=1
     200 active attempt=2 since=400 status=sending
CCCC /query uri=tel:+12025331234
     200 uri=tel:+12025331234;npdi;rn=+12025440000
DDDD /downloads/acknowledge attempt=2 id=1
     200 active attempt=2 since=401 status=old
CCCC /query uri=tel:+12025331234
     200 uri=tel:+12025331234;npdi
NPAC /carriers spid=EEEE
     200 rows=[] spid=EEEE
