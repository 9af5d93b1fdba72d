# The routing of a port in force is modified at 300. Until the carriers have acknowledged it, the port
# is in force as it was.
after active-port

let modified active attempt=2 since=300 status=sending

AAAA /lrns lrn=2025440001
     200 lrn=2025440001 spid=AAAA
NPAC /clock minute=300
     200 now=300
AAAA /subscriptionVersionModify id=1 lrn=2025440001
     200 modified
CCCC /versions/1
     200 modified
CCCC /query uri=tel:+12025331234
     200 uri=tel:+12025331234;npdi;rn=+12025440000
