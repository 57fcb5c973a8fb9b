# The batch update by the shell's tools: the merge of masters and details comes in by lines, sorted by their first K bytes, masters before
# details. The new masters are printed, and what was refused goes to the file REFUSED. Both are given with -v.

function close_group() {
    if (has) printf "%sM%.0f\n", key, balance
}

function refuse() {
    print >REFUSED
}

{
    if (NR == 1 || substr($0, 1, K) != key) {
        close_group()
        key = substr($0, 1, K)
        has = 0
    }
    sign = substr($0, K + 1, 1)
    digits = substr($0, K + 2)
    amount = digits + 0
    if (digits !~ /^(0|[1-9][0-9]*)$/ || length(digits) > 16 || amount > 1000000000000000)
        refuse()
    else if ((sign == "M" || sign == "N") && !has) {
        has = 1
        balance = amount
    } else if (sign == "+" && has && balance + amount <= 1000000000000000)
        balance += amount
    else if (sign == "-" && has && balance >= amount)
        balance -= amount
    else if (sign == "X" && has && balance == amount)
        has = 0
    else
        refuse()
}

END {
    close_group()
}
