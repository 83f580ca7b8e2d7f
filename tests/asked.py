"""Answers -h and --help for the script that imports this first, by the text at the script's head."""
import sys

if sys.argv[1:] in (["-h"], ["--help"]):
    print(sys.modules["__main__"].__doc__.strip())
    sys.exit()
