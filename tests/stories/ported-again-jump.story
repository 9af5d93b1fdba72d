# A number that was given back is ported again after one jump over the end of its delete's window, while
# the delete still waits for one carrier, who acknowledges out of order, in order, and twice.
after disconnected

let again port due=30 id=2

NPAC /clock minute=30
     200 now=30
AAAA /subscriptionVersionNewSP-Create create due=30
     200 again phase=initial since=30
BBBB /subscriptionVersionOldSP-Create concur due=30
     200 again since=30
AAAA /subscriptionVersionActivate id=2
     200 again attempt=1 since=30 status=sending
AAAA /downloads/10
     200 {"downloads":[{"action":"create","attempt":1,"cic":null,"id":2,"lrn":"2025440000","minute":30,"subject":"2025331234"}]}
BBBB /downloads/10
     200 {"downloads":[{"action":"delete","attempt":2,"cic":null,"id":1,"lrn":null,"minute":10,"subject":"2025331234"},{"action":"create","attempt":1,"cic":null,"id":2,"lrn":"2025440000","minute":30,"subject":"2025331234"}]}
BBBB /downloads/1
     200 {"downloads":[{"action":"delete","attempt":2,"cic":null,"id":1,"lrn":null,"minute":10,"subject":"2025331234"}]}
BBBB /downloads/acknowledge attempt=1 id=2
     409 out_of_order 26
BBBB /downloads/acknowledge attempt=2 id=2
     404 not_queued 25
BBBB /downloads/10
     200 {"downloads":[{"action":"delete","attempt":2,"cic":null,"id":1,"lrn":null,"minute":10,"subject":"2025331234"},{"action":"create","attempt":1,"cic":null,"id":2,"lrn":"2025440000","minute":30,"subject":"2025331234"}]}
BBBB /downloads/acknowledge attempt=2 id=1
     200 active attempt=2 since=25 status=old
BBBB /downloads/10
     200 {"downloads":[{"action":"create","attempt":1,"cic":null,"id":2,"lrn":"2025440000","minute":30,"subject":"2025331234"}]}
BBBB /downloads/acknowledge attempt=1 id=2
     200 again attempt=1 since=30 status=sending
BBBB /downloads/10
     200 downloads=[]
CCCC /downloads/10
     200 {"downloads":[{"action":"create","attempt":1,"cic":null,"id":2,"lrn":"2025440000","minute":30,"subject":"2025331234"}]}
BBBB /downloads/acknowledge attempt=2 id=1
     404 not_queued 25
BBBB /downloads/acknowledge attempt=1 id=2
     404 not_queued 25
AAAA /downloads/acknowledge attempt=1 id=2
     200 again attempt=1 since=30 status=sending
CCCC /downloads/acknowledge attempt=1 id=2
     200 again attempt=1 since=30 status=active
CCCC /versions/1
     200 active attempt=2 since=25 status=old
CCCC /query uri=tel:+12025331234
     200 uri=tel:+12025331234;npdi;rn=+12025440000
