# A second client: its line waits until the first line of the other was told.
a volume create /vol1
b after a 1 volume info /vol1
