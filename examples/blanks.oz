# Remarks, empty lines, blanks and tabs, and a carriage return at a line's end.

	 a 	volume  create	/vol1 	
# a volume create /vol2
a volume info /vol1
a volume info /vol2
