#!/usr/bin/env python3
"""Writes a C text with so many bytes: text.py SIZE.

It is as `mmc link` writes texts: functions with the body of function.c, of which each may call the
one before, and a `main` that calls the last. Nearly all of it is read, and hardly any is run.
"""
import os
import sys

PRELUDE = """extern void mm_put ( int ) ;
extern int mm_get ( void ) ;
extern int mm_more ( void ) ;
extern void mm_trap ( int ) ;
extern char * mm_new ( unsigned ) ;
"""
MAIN = """int main ( void ) {
int i0 = 0 ;
i0 = LAST ( 9 , 3u ) ;
mm_put ( i0 ) ;
return 0 ;
}
"""
with open(f"{os.path.dirname(os.path.abspath(__file__))}/function.c", encoding="utf-8") as file:
    FUNCTION = file.read()
left = int(sys.argv[1]) - len(PRELUDE) - len(MAIN.replace("LAST", "f" + "9" * 9))
sys.stdout.write(PRELUDE)
last = "f0"
for number in range(10 ** 9):
    name = f"f{number}"
    function = FUNCTION.replace("CALLED", last).replace("NAME", name)
    if len(function) > left:
        break
    sys.stdout.write(function)
    left -= len(function)
    last = name
end = MAIN.replace("LAST", last)
sys.stdout.write(end + "\n" * (left + 10 - len(last)))
