# A carrier that registers in the release minute is one of those that the delete goes to, and the number is
# one of its rows until then.
after planned-disconnect

NPAC /clock minute=400
     200 now=400
NPAC /carriers spid=DDDD
     200 {"rows":[{"cic":null,"lrn":"2025440000","subject":"2025331234"}],"spid":"DDDD"}
DDDD /downloads/acknowledge attempt=2 id=1
     200 active attempt=2 since=400 status=sending
NPAC /clock minute=415
     200 now=415
NPAC /carriers spid=EEEE
     200 rows=[] spid=EEEE
CCCC /versions/1
     200 active attempt=2 since=415 status=old
EEEE /downloads/acknowledge attempt=2 id=1
     404 not_queued 25
AAAA /downloads/acknowledge attempt=2 id=1
     200 active attempt=2 since=415 status=old
