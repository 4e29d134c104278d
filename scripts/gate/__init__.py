"""What ./test and the scripts check-* share. It imports from norigully, which is what people run, and nothing there
imports from here."""

# It says first which Python is needed.
__import__("norigully")
