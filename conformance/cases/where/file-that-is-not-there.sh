# The file is no file.
sh ../../../tools/where nowhere.hhas 0
