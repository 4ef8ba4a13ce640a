# Makes C of the tables in docs/REFUSALS.md: a row for each refusal, its number, what it means, what to do next; and with
# -v rules=1 a row for each rule of a table, its number, what it means, where to look, what to do next.
BEGIN { FS = " *\\| *" }
rules && $2 ~ /^rule [0-9]+$/ {
    gsub(/[\\"]/, "\\\\&")
    gsub(/`/, "")
    printf "    {%d, \"%s\", \"%s\", \"%s\"},\n", substr($2, 6), $3, $4, $5
}
!rules && $2 ~ /^[0-9]+$/ {
    gsub(/[\\"]/, "\\\\&")
    gsub(/`/, "")
    printf "    {%s, \"%s\", \"%s\"},\n", $2, $4, $5
}
