# What is made stays: over one folder the first run makes the volume, and each later one is told that it is there.
a volume create /kept
a volume info /kept
