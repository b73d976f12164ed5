# sed -f examples/replay.sed LOG: the operations of a log as a script, each as it stands before its first colon.
# Bus items, the two lines of a sequence, a refused burst and the last line are left out.
/^  /d
/^seq /d
/^burst-/d
/^end: /d
/^refused /d
s/:.*//
