# A second port that nobody acknowledges fails, minute by minute. The first one stays in force until the
# second, activated again, is acknowledged by every carrier.
after second-port-sent

for 201 to 214
NPAC /clock minute=#
     200 now=#
CCCC /versions/2
     200 onward attempt=1 since=200 status=sending
CCCC /query uri=tel:+12025331234
     200 uri=tel:+12025331234;npdi;rn=+12025440000
end
NPAC /clock minute=215
     200 now=215
CCCC /versions/2
     200 onward attempt=1 since=215 status=failed
AAAA /downloads/10
     200 downloads=[]
BBBB /downloads/10
     200 downloads=[]
CCCC /downloads/10
     200 downloads=[]
CCCC /versions/1
     200 active
CCCC /query uri=tel:+12025331234
     200 uri=tel:+12025331234;npdi;rn=+12025440000
AAAA /downloads/acknowledge attempt=1 id=2
     404 not_queued 25
BBBB /downloads/acknowledge attempt=1 id=2
     404 not_queued 25
CCCC /downloads/acknowledge attempt=1 id=2
     404 not_queued 25
CCCC /subscriptionVersionActivate id=2
     200 onward attempt=2 since=215 status=sending
AAAA /downloads/10
     200 {"downloads":[{"action":"create","attempt":2,"cic":null,"id":2,"lrn":"2025550000","minute":215,"subject":"2025331234"}]}
BBBB /downloads/10
     200 {"downloads":[{"action":"create","attempt":2,"cic":null,"id":2,"lrn":"2025550000","minute":215,"subject":"2025331234"}]}
CCCC /downloads/10
     200 {"downloads":[{"action":"create","attempt":2,"cic":null,"id":2,"lrn":"2025550000","minute":215,"subject":"2025331234"}]}
AAAA /downloads/acknowledge attempt=2 id=2
     200 onward attempt=2 since=215 status=sending
BBBB /downloads/acknowledge attempt=2 id=2
     200 onward attempt=2 since=215 status=sending
AAAA /downloads/10
     200 downloads=[]
BBBB /downloads/10
     200 downloads=[]
CCCC /downloads/10
     200 {"downloads":[{"action":"create","attempt":2,"cic":null,"id":2,"lrn":"2025550000","minute":215,"subject":"2025331234"}]}
NPAC /clock minute=229
     200 now=229
CCCC /query uri=tel:+12025331234
     200 uri=tel:+12025331234;npdi;rn=+12025440000
CCCC /downloads/acknowledge attempt=2 id=2
     200 onward attempt=2 since=229 status=active
CCCC /versions/1
     200 active since=229 status=old
CCCC /query uri=tel:+12025331234
     200 uri=tel:+12025331234;npdi;rn=+12025550000
