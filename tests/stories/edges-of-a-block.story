# Which numbers count as those of a block that is donated: its first and its last do, and their neighbors do not.
after opening

let open port due=100 lrn=null phase=initial

# a number before the block and one after it are open
BBBB /subscriptionVersionOldSP-Create concur due=100 tn=2025334999
     200 open subject=2025334999
BBBB /subscriptionVersionOldSP-Create concur due=100 tn=2025336000
     200 open id=2 subject=2025336000
BBBB /blocks/donate donation block=2025335 used=500
     200 block=2025335 ids=3

# the last number is open, and then the first
BBBB /blocks/donate donation block=2025334 used=500
     409 open_ports 23
BBBB /subscriptionVersionCancel id=1
     200 open phase=null status=canceled subject=2025334999
BBBB /subscriptionVersionOldSP-Create concur due=100 tn=2025334000
     200 open id=4 subject=2025334000
BBBB /blocks/donate donation block=2025334 used=500
     409 open_ports 23

# a version that has ended does not count
BBBB /subscriptionVersionCancel id=4
     200 open id=4 phase=null status=canceled subject=2025334000
BBBB /blocks/donate donation block=2025334 used=500
     200 block=2025334 ids=5
