# Volumes: making, asking, deleting, and what is refused of each.
a volume create /music
a volume create /music
a volume info /music
a volume info /films
a volume create /Music
a volume create /ab
a volume create /192.168.1.1
a volume delete /films
a volume delete /music
a volume info /music
