# A swap file whose buffer isn't saved: of a process, a host and a file.
swap() {
    {
        printf 'b0VIM 9.0\0\0\0'
        head -c 12 /dev/zero
        printf "\\$(printf %03o $(($1 % 256)))\\$(printf %03o $(($1 / 256 % 256)))\\$(printf %03o $(($1 / 65536 % 256)))\\0"
        printf 'ann'
        head -c 37 /dev/zero
        printf '%s' "$2"
        head -c $((40 - ${#2})) /dev/zero
        printf '%s' "$3"
        head -c $((899 - ${#3})) /dev/zero
        printf U
    } > "$4"
}
printf '* TODO a\n' > a.org
swap 4194305 elsewhere a.org .a.org.swp
