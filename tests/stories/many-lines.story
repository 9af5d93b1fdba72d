# A list of lines may be as long as a body: a line that is named very often counts once, and all thousand are too many.
after opening

BBBB /blocks/donate donation used=000..999
     409 contaminated 22

# and the last of many is looked at
BBBB /blocks/donate donation used=001*10000,12
     400 bad_request 41
BBBB /blocks/donate donation used=001*100000,002
     200 block=2025337 ids=1,2
CCCC /versions/1
     200 first
CCCC /versions/2
     200 second
