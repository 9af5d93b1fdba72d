# One carrier acknowledges a modify in time and the others later: the port has its new routing from the
# end of the window on.
after modified

NPAC /clock minute=301
     200 now=301
CCCC /downloads/acknowledge attempt=2 id=1
     200 modified
NPAC /clock minute=314
     200 now=314
CCCC /versions/1
     200 modified
NPAC /clock minute=315
     200 now=315
CCCC /versions/1
     200 active attempt=2 lrn=2025440001 since=315 status=partial-failure
CCCC /query uri=tel:+12025331234
     200 uri=tel:+12025331234;npdi;rn=+12025440001
NPAC /clock minute=320
     200 now=320
AAAA /downloads/acknowledge attempt=2 id=1
     200 active attempt=2 lrn=2025440001 since=315 status=partial-failure
BBBB /downloads/acknowledge attempt=2 id=1
     200 active attempt=2 lrn=2025440001 since=320
