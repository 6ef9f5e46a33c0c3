# A script that is refused: its fourth line is no command, so no line is served.
a volume create /vol1
a volume info /vol1
a volume rename /vol1 /vol2
a volume delete /vol1
