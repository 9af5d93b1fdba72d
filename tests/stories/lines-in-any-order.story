# Lines may be named in any order: the ids rise with the numbers.
after opening

BBBB /blocks/donate donation cic=0288 used=900,001,900,007
     200 block=2025337 ids=1..3
CCCC /versions/1
     200 first cic=0288
CCCC /versions/2
     200 first cic=0288 id=2 subject=2025337007
CCCC /versions/3
     200 first cic=0288 id=3 subject=2025337900
CCCC /versions/4
     404 not_found 10
