# A block is donated. All acknowledge the version of the first used number, nobody that of the second, which fails.
after donated-block

CCCC /query uri=tel:+12025337001
     200 uri=tel:+12025337001;npdi
NPAC /clock minute=5
     200 now=5
AAAA,BBBB /downloads/acknowledge attempt=1 id=1
     200 first
CCCC /downloads/acknowledge attempt=1 id=1
     200 first since=5 status=active
CCCC /query uri=tel:+12025337001
     200 uri=tel:+12025337001;npdi;rn=+12025330000
NPAC /clock minute=14
     200 now=14
CCCC /versions/2
     200 second
NPAC /clock minute=15
     200 now=15
CCCC /versions/2
     200 second since=15 status=failed
AAAA,BBBB,CCCC /downloads/10
     200 downloads=[]
CCCC /versions/1
     200 first since=5 status=active
