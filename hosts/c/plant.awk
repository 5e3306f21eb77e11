# Plants a fault in amsulfezd.h, for hosts.sh to see that fields.c finds it: of the numbers in the lines that read,
# check or place a field or take apart what a call returned, and the one that says nobody, number `at` is changed by `by`.
# With at=0 the count of these numbers is printed.
/^#define AMSULFEZD_NOBODY |amsulfezd_field\((answer|word), |amsulfezd_load\((entry|bytes)|entry\[16\] |returned [\/%] |amsulfezd_fits\(|amsulfezd_(store|put)\(to|(<<|>>) [0-9]/ && !/^static/ {
    rest = $0
    line = ""
    while (match(rest, /[A-Za-z0-9_]+/)) {
        word = substr(rest, RSTART, RLENGTH)
        if (word ~ /^[0-9]+$/ && ++count == at)
            word += by
        line = line substr(rest, 1, RSTART - 1) word
        rest = substr(rest, RSTART + RLENGTH)
    }
    $0 = line rest
}
at != 0 { print }
END { if (at == 0) print count }
