# A planned disconnect is sent at its release minute. Nobody acknowledges it, minute by minute: the number
# is active again.
after planned-disconnect

CCCC /versions/1
     200 active release=400 since=300 status=disconnect-pending
NPAC /clock minute=399
     200 now=399
CCCC /versions/1
     200 active release=400 since=300 status=disconnect-pending
AAAA /downloads/10
     200 downloads=[]
BBBB /downloads/10
     200 downloads=[]
CCCC /downloads/10
     200 downloads=[]
AAAA /downloads/acknowledge attempt=2 id=1
     404 not_queued 25
for 400 to 414
NPAC /clock minute=#
     200 now=#
CCCC /versions/1
     200 active attempt=2 since=400 status=sending
AAAA /downloads/10
     200 {"downloads":[{"action":"delete","attempt":2,"cic":null,"id":1,"lrn":null,"minute":400,"subject":"2025331234"}]}
BBBB /downloads/1
     200 {"downloads":[{"action":"delete","attempt":2,"cic":null,"id":1,"lrn":null,"minute":400,"subject":"2025331234"}]}
CCCC /downloads/100
     200 {"downloads":[{"action":"delete","attempt":2,"cic":null,"id":1,"lrn":null,"minute":400,"subject":"2025331234"}]}
CCCC /query uri=tel:+12025331234
     200 uri=tel:+12025331234;npdi;rn=+12025440000
end
NPAC /clock minute=415
     200 now=415
CCCC /versions/1
     200 active attempt=2 since=415
CCCC /query uri=tel:+12025331234
     200 uri=tel:+12025331234;npdi;rn=+12025440000
AAAA /downloads/10
     200 downloads=[]
BBBB /downloads/10
     200 downloads=[]
CCCC /downloads/10
     200 downloads=[]
AAAA /downloads/acknowledge attempt=2 id=1
     404 not_queued 25
BBBB /downloads/acknowledge attempt=2 id=1
     404 not_queued 25
CCCC /downloads/acknowledge attempt=2 id=1
     404 not_queued 25
