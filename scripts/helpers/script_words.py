"""How a script of this folder takes the words that it is called with."""
import signal
import sys


def asked(doc, takes=0):
    """Returns the words, `takes` of them at most, none of which begins with a dash. Where help is
    asked for it prints the script's text, and at other words how the script is called; both end
    the script. Who reads what it prints may stop early."""
    signal.signal(signal.SIGPIPE, signal.SIG_DFL)
    words = sys.argv[1:]
    if words in (["-h"], ["--help"]):
        print(doc.strip())
        sys.exit(0)
    if len(words) > takes or any(it.startswith("-") for it in words):
        wrong_words(doc)
    return words


def wrong_words(doc):
    """Ends the script with how it is called."""
    sys.exit("usage:\n" + "\n".join(it for it in doc.splitlines() if it.startswith(("  scripts/", "  bench/"))))


def without_flag(flag):
    """Takes a flag away that is the first word, and returns whether it was there."""
    is_there = sys.argv[1:2] == [flag]
    del sys.argv[1 : 1 + is_there]
    return is_there
