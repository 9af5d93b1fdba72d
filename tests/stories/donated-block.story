# BBBB donates a block of which two lines are in use: each gets a version that keeps it with BBBB.
after opening

BBBB /blocks/donate donation
     200 block=2025337 ids=1,2
