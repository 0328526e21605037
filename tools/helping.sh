# What a tool says to --help: the text at its head, behind which it ends with status 0. It is read by a script,
# with its words.
if [ "$*" = --help ]; then
    sed -n '2,/^[^#]/s/^# \{0,1\}//p' "$0"
    exit
fi
