# A carrier that comes later: it begins its copy with what is in force, and follows its downloads.
after first-port

let second port due=60 id=2 subject=2025331235

# What is in force when CCCC is registered: the copy begins with 2025331234.
NPAC /clock minute=60
     200 now=60
NPAC /carriers spid=CCCC
     200 {"rows":[{"cic":null,"lrn":"2025440000","subject":"2025331234"}],"spid":"CCCC"}
CCCC /downloads/10
     200 downloads=[]

# Another number is ported, and at 61 the first is given back.
AAAA /subscriptionVersionNewSP-Create create due=60 tn=2025331235
     200 second phase=initial since=60
BBBB /subscriptionVersionOldSP-Create concur due=60 tn=2025331235
     200 second since=60
AAAA /subscriptionVersionActivate id=2
     200 second attempt=1 since=60 status=sending
NPAC /clock minute=61
     200 now=61
AAAA /subscriptionVersionDisconnect id=1
     200 port attempt=2 since=61 status=sending

# Both wait for CCCC. It puts the first into its copy, and acknowledges it.
CCCC /downloads/10
     200 {"downloads":[{"action":"create","attempt":1,"cic":null,"id":2,"lrn":"2025440000","minute":60,"subject":"2025331235"},{"action":"delete","attempt":2,"cic":null,"id":1,"lrn":null,"minute":61,"subject":"2025331234"}]}
CCCC /downloads/acknowledge attempt=1 id=2
     200 second attempt=1 since=60 status=sending

# It takes 2025331234 out of its copy, and acknowledges that. Then nothing waits for it.
CCCC /downloads/10
     200 {"downloads":[{"action":"delete","attempt":2,"cic":null,"id":1,"lrn":null,"minute":61,"subject":"2025331234"}]}
CCCC /downloads/acknowledge attempt=2 id=1
     200 port attempt=2 since=61 status=sending
CCCC /downloads/10
     200 downloads=[]

# The others acknowledge too. Each number is answered as CCCC's copy has it.
AAAA /downloads/acknowledge attempt=1 id=2
     200 second attempt=1 since=60 status=sending
BBBB /downloads/acknowledge attempt=1 id=2
     200 second attempt=1 since=61 status=active
AAAA /downloads/acknowledge attempt=2 id=1
     200 port attempt=2 since=61 status=sending
BBBB /downloads/acknowledge attempt=2 id=1
     200 port attempt=2 since=61 status=old
CCCC /query uri=tel:+12025331235
     200 uri=tel:+12025331235;npdi;rn=+12025440000
CCCC /query uri=tel:+12025331234
     200 uri=tel:+12025331234;npdi
