# A carrier that registers while a modify is under way is told the old routing, and the modify waits for it.
after modified

let row-of-port cic=null lrn=2025440000 subject=2025331234

NPAC /clock minute=310
     200 now=310
NPAC /carriers spid=DDDD
     200 rows=row-of-port spid=DDDD
DDDD /downloads/10
     200 {"downloads":[{"action":"modify","attempt":2,"cic":null,"id":1,"lrn":"2025440001","minute":300,"subject":"2025331234"}]}
AAAA,BBBB,CCCC /downloads/acknowledge attempt=2 id=1
     200 modified
DDDD /downloads/acknowledge attempt=2 id=1
     200 active attempt=2 lrn=2025440001 since=310
