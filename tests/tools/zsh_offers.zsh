# Prints what zsh would offer at the end of a line, one word a line.
#
#     zsh -f tests/tools/zsh_offers.zsh FOLDER LINE
#
# FOLDER holds the completion as _afdx. An interactive zsh in a terminal of its own gets the line
# and a tab; its compadd prints the words that would be offered.
zmodload zsh/zpty || exit 1
zpty shell zsh -f -i
zpty -w shell "source ${0:h}/zsh_setup.zsh ${(q)1}"
zpty -r -m shell told '*READY*'
zpty -n -w shell "$2"$'\t'
zpty -r -m shell told '*BEGIN*END*'
print -r -- ${${told#*BEGIN}%%END*} | tr -d '\r' | grep -v '^$'
zpty -d shell
