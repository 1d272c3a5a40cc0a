# Texts too long to be written down, each made by a function; calls.sh sources this file.

# times COUNT TEXT: the text so many times.
times() {
  awk -v count="$1" -v text="$2" 'BEGIN { for (i = 0; i < count; i++) printf "%s", text }'
}

# A put of a key and a value of so many bytes.
put_of() {
  printf 'put accounts %s %s\n' "$(times "$1" aa)" "$(times "$2" 01)"
}

# Keys have 1 to 64 bytes, and values 1 to 65,535.
lengths_at_their_borders() {
  printf 'tx 0\n'
  put_of 64 65535
  put_of 65 65536
  put_of 1 65536
  printf 'put accounts aa -\n'
}

lengths_at_their_borders_replies() {
  printf 'ok\nok\nerr length 65\nerr length 65536\nerr length 0\n'
}

# A line has at most 262,144 bytes, its carriage return among them.
longest_lines() {
  times 262145 x
  printf '\n'
  times 262144 x
  printf '\n'
  times 262144 x
  printf '\r\n'
}

longest_lines_replies() {
  printf 'err long 1\nerr syntax 2\nerr long 3\n'
}

# At most 64 transactions are open at once; one that is closed makes room.
most_transactions() {
  printf 'open\nclose 1\n'
  times 65 $'open\n'
}

most_transactions_replies() {
  printf 'opened 1 0\nok\n'
  awk 'BEGIN { for (n = 2; n <= 65; n++) printf "opened %d 0\n", n }'
  printf 'err open 64\n'
}

# 300 transactions over 40 steps of eight numbers, each with one put of a key of two digits and a look at
# another that may have been put long before. The first word says after how many of them the files are
# written.
transactions() {
  awk -v settled="$1" 'BEGIN {
    for (i = 0; i < 300; i++) {
      printf "tx %d\nput accounts %d %d\ncommit\nopen\n", i + int((i + 1) / 15), 10 + 7 * i % 83, 10 + i % 90
      printf "latest %d accounts %d\nclose %d\n", i + 1, 10 + i % 89, i + 1
      if (i % settled == settled - 1) printf "settle\n"
    }
  }'
}

# Their replies, by a plain list of the puts; the lines of `settle` are left out.
transactions_replies() {
  awk 'BEGIN {
    for (i = 0; i < 300; i++) {
      number = i + int((i + 1) / 15)
      value[10 + 7 * i % 83] = 10 + i % 90
      key = 10 + i % 89
      printf "ok\nok\ncommitted 1 %d\nopened %d %d\n", number + 1, i + 1, number + 1
      print (key in value) ? "value " value[key] : "none"
      print "ok"
    }
  }'
}
