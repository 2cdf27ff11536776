"""Applies an edit, a text that stands once in a file and what takes its place, below a folder."""
import sys

edit, folder = sys.argv[1:]
lines = open(edit, encoding="utf-8").read().splitlines()
name, old, new = (line.split(": ", 1)[1] for line in lines[:3])
path = folder + "/" + name
text = open(path, encoding="utf-8").read()
if text.count(old) != 1:
    sys.exit(name + " has the text " + str(text.count(old)) + " times: " + old)
open(path, "w", encoding="utf-8").write(text.replace(old, new))
