"""The command ./run: its words, the proved program or a first look, and hints beside the program's one line."""
