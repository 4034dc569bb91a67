"""The graphics of print chains: all 64 characters by their codes, and what is said of a deck for another chain."""

# This machine's, those of SIMH's i1401 for business, and those for formulas.
OURS = " 1234567890#@:>(^/STUVWXYZ',%=\\+-JKLMNOPQR!$*];_&ABCDEFGHI?.)[<\""
BUSINESS = " 1234567890#@:>{^/STUVWXYZ|,%~\\\"-JKLMNOPQR!$*];_&ABCDEFGHI?.)[<}"
FORMULAS = " 1234567890=':>{^/STUVWXYZ|,(~\\\"-JKLMNOPQR!$*];_+ABCDEFGHI?.)[<}"
CHAINS = {"ours": OURS, "simh": BUSINESS, "fortran": FORMULAS}

# What is said without --graphics of = ( +, and of bytes that no character here has; and with --graphics simh of = ' ( +.
DOUBTFUL = "= ( + are other characters on a chain for formulas; --graphics fortran or ours says which chain"
SIMH = "some bytes are graphics of another chain: --graphics simh reads those of SIMH"
FORTRAN = "some bytes are graphics of another chain: --graphics fortran reads those for formulas"
# The same of a source, if a chain was asked for.
SOURCE_SIMH, SOURCE_FORTRAN = (each.replace("--graphics", "--source-graphics") for each in (SIMH, FORTRAN))
