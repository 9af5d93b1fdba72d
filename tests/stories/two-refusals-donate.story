# Refusals of a donation, two at a time: the lesser one is answered. 2025337 is free; 2025338 has a number with an open
# version alone; 2025339 is donated, and has one of these too.
after opening

let busy donation block=2025338
let given donation block=2025339
let closed donation block=2025349
let many donation used=000..100

BBBB /subscriptionVersionOldSP-Create concur due=100 tn=2025338005
     200 port due=100 lrn=null phase=initial subject=2025338005
BBBB /blocks/donate given used=001
     200 block=2025339 ids=2

# the caller is unknown; and the code is not opened, the routing number is not its own, it does not hold the code, too
# many numbers are in use, one is open, the block is donated
ZZZZ,NPAC /blocks/donate closed
     403 unknown_carrier 1
ZZZZ /blocks/donate donation
     403 unknown_carrier 1
NPAC /blocks/donate many
     403 unknown_carrier 1
ZZZZ /blocks/donate busy
     403 unknown_carrier 1
NPAC /blocks/donate given
     403 unknown_carrier 1

# the code is not opened; and the routing number is another's, the caller is another, too many numbers are in use
BBBB /blocks/donate closed lrn=2025440000
     404 unknown_code 3
CCCC /blocks/donate closed lrn=2025550000
     404 unknown_code 3
BBBB /blocks/donate closed used=000..100
     404 unknown_code 3

# the routing number is another's; and the caller is another, too many are in use, one is open, the block is donated
CCCC /blocks/donate donation
     409 bad_lrn 7
BBBB /blocks/donate many lrn=2025550000
     409 bad_lrn 7
BBBB /blocks/donate busy lrn=2025550000
     409 bad_lrn 7
BBBB /blocks/donate given lrn=2025550000
     409 bad_lrn 7

# the caller is another; and too many are in use, one is open, the block is donated
CCCC /blocks/donate many lrn=2025550000
     403 not_yours 11
CCCC /blocks/donate busy lrn=2025550000
     403 not_yours 11
CCCC /blocks/donate given lrn=2025550000
     403 not_yours 11

# too many are in use; and one is open, the block is donated
BBBB /blocks/donate busy used=000..100
     409 contaminated 22
BBBB /blocks/donate given used=000..100
     409 contaminated 22

# one is open, and the block is donated
BBBB /blocks/donate given
     409 open_ports 23

# each of them alone
BBBB /blocks/donate closed
     404 unknown_code 3
BBBB /blocks/donate donation lrn=2025550000
     409 bad_lrn 7
CCCC /blocks/donate donation lrn=2025550000
     403 not_yours 11
BBBB /blocks/donate many
     409 contaminated 22
BBBB /blocks/donate busy
     409 open_ports 23
AAAA,BBBB /downloads/acknowledge attempt=1 id=2
     200 first id=2 subject=2025339001
CCCC /downloads/acknowledge attempt=1 id=2
     200 first id=2 status=active subject=2025339001
BBBB /blocks/donate given
     409 block_taken 24

# and nothing has changed
BBBB /blocks/donate donation
     200 block=2025337 ids=3,4
