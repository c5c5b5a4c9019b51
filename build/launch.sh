# Runs the program that $program names with the given words: the last part of the script ygg, in a clone and in a release.

# `-f format FILE IMAGE` formats also where IMAGE is a file that is no image: it is removed, where FILE is one that is taken. What is to become of an image,
# the program says, and all other words are its own.
is_image() {
    head -c 7 -- "$1" 2>/dev/null | grep -q '^YGGIMG1$'
}

if [ "$#" -eq 4 ] && [ "$1 $2" = '-f format' ]; then
    shift
    if { [ -f "$3" ] || [ -L "$3" ]; } && ! is_image "$3" && ! [ "$2" -ef "$3" ] && "$program" print "$2" >/dev/null 2>&1; then
        rm -f -- "$3"
    fi
fi
# What nests in a file is read by recursion: a text of the greatest size may take 1 GiB of the stack.
ulimit -s unlimited 2>/dev/null || ulimit -s "$(ulimit -H -s)" 2>/dev/null
# A reader that goes away is a failed write, which the program reports, and no signal; so is a file that may not grow.
trap '' PIPE XFSZ
exec "$program" "$@"
