# Nobody acknowledges a modify, and one jump goes over the end of its window: the port keeps its routing,
# and nothing of the modify waits.
after modified

NPAC /clock minute=900
     200 now=900
CCCC /versions/1
     200 active attempt=2 since=315
CCCC /query uri=tel:+12025331234
     200 uri=tel:+12025331234;npdi;rn=+12025440000
AAAA,BBBB,CCCC /downloads/10
     200 downloads=[]
