# Every carrier acknowledges a modify at 301: the port has its new routing.
after modified

NPAC /clock minute=301
     200 now=301
AAAA,BBBB /downloads/acknowledge attempt=2 id=1
     200 modified
CCCC /query uri=tel:+12025331234
     200 uri=tel:+12025331234;npdi;rn=+12025440000
CCCC /downloads/acknowledge attempt=2 id=1
     200 active attempt=2 lrn=2025440001 since=301
CCCC /query uri=tel:+12025331234
     200 uri=tel:+12025331234;npdi;rn=+12025440001
AAAA,BBBB,CCCC /downloads/10
     200 downloads=[]
