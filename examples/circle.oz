# A script that is refused: each of two lines waits for the other.
a after b 1 volume info /vol1
b after a 1 volume info /vol1
