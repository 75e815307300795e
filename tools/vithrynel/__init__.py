"""What tools/ladder, tools/capture and tools/pictures share. Python 3.9, standard library alone."""
