# A block is donated of which no number is in use: nobody serves its numbers.
after opening

BBBB /blocks/donate donation used=[]
     200 block=2025337 ids=[]
AAAA /subscriptionVersionNewSP-Create create tn=2025337005
     409 in_pool 8
BBBB /subscriptionVersionOldSP-Create concur tn=2025337005
     409 in_pool 8
AAAA /query uri=tel:+12025337005
     200 uri=tel:+12025337005;npdi
AAAA /downloads/10
     200 downloads=[]
# and a number of another block of the code is BBBB's as before
AAAA /subscriptionVersionNewSP-Create create tn=2025336005
     200 port phase=initial subject=2025336005
