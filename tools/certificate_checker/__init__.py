"""An independent check of certificates: written from the rules in docs/, it shares no code with the program."""
