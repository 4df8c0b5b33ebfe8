# What the searches of the source share: a file's tokens, and a function or type cut out of them.

# tokens FILE..: the code on one line, its tokens parted by spaces; comments, `ghost use` and contracts are left out
tokens() {
    awk '
    function scan(s) {
        while (s != "") {
            if (comment) {
                if (!index(s, "*/")) return
                s = substr(s, index(s, "*/") + 2)
                comment = 0
            } else if (match(s, /^[ \t]+/)) s = substr(s, RLENGTH + 1)
            else if (substr(s, 1, 2) == "//") return
            else if (substr(s, 1, 2) == "/*") {
                s = substr(s, 3)
                comment = 1
            } else if (match(s, /^b?"([^"\\]|\\.)*"/) || match(s, /^b?\047([^\047\\]|\\.)\047/) || match(s, /^\047?[A-Za-z_][A-Za-z_0-9]*/) ||
                match(s, /^[0-9][A-Za-z_0-9]*(\.[0-9]+)?/) || match(s, /^(\.\.=|\.\.|::|->|=>|==|!=|<=|>=|&&|\|\|)/) || match(s, /^./)) {
                token[++count] = substr(s, 1, RLENGTH)
                s = substr(s, RLENGTH + 1)
            }
        }
    }
    # the index after the clause that begins at k: it ends with its pair of braces
    function after(k,    depth) {
        while (k <= count && token[k] != "{") k++
        for (; k <= count; k++) {
            if (token[k] == "{") depth++
            if (token[k] == "}" && --depth == 0) return k + 1
        }
        return k
    }
    { scan($0) }
    END {
        for (k = 1; k <= count; k++) {
            while (token[k] == "requires" || token[k] == "ensures") k = after(k)
            if (token[k] == "ghost") while (k < count && token[k] != ";") k++
            else printf "%s ", token[k]
        }
        print ""
    }' "$@"
}

# block START: of the tokens read, those from START to the end of the pair of braces that follows; nothing if START is not there
block() {
    awk -v start="$1 " '
    {
        line = " " $0
        if (!(at = index(line, " " start))) exit
        size = split(substr(line, at + 1), token, " ")
        for (k = 1; k <= size; k++) {
            printf "%s ", token[k]
            if (token[k] == "{") depth++
            if (token[k] == "}" && --depth == 0) exit
        }
    }'
}
