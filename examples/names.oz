# Names: 3 to 63 of a-z, 0-9, - and dots, a letter or a digit at both ends, not digits and dots alone.
a volume create /a--b
a volume create /a.b
a volume create /a..b
a volume create /a.-b
a volume create /-ab
a volume create /12.34
a volume create /12a
a volume create /
a bucket create /a.b/bk1
a bucket create /a.b/bk1/
a bucket create /a.b/Bk1
a bucket create /a.b
a bucket list /a.b
