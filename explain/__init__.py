"""The explanation that ./scr prints under the verdict of the proved program. It decides nothing: the verdict is the program's."""
