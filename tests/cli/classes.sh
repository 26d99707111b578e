#!/bin/sh
# Compares what the table of classes (texts/classes.txt) says of words with what the built program's `show` says of
# them: words of each class with any other digit at each place, and any words.
# usage: sh tests/cli/classes.sh PROGRAM
# runs: everywhere rust
# fails where: texts/classes.txt|s/^words     8, x, d, DDD/words     8, d, d, DDD/

. "$(dirname "$0")/../helpers.sh"

python3 -B - "$top/texts" > words << 'END'
import random, sys
sys.path.append(sys.argv[1])
from classes import read_classes
choose, classes = random.Random(20857), read_classes()
assert len(classes) == 12
words = ["%06X" % choose.randrange(2 ** 23, 2 ** 24) for _ in range(3000)]
for one in classes[:-1]:
    for place in range(6):
        for digit in 5 * list(range(16)):
            digits = list(map(choose.randint, one.least, one.greatest))
            digits[place] = digit
            words.append("".join("%X" % digit for digit in digits))
words = [word for word in words if word >= "8"]
words += "-" * (-len(words) % 3)
for place in range(0, len(words), 3):
    print(*words[place:place + 3])
END
output_of draw $ntsc words | bounded "$program" show $ntsc | sed -n 's/^1[678] \([0-9A-F]\{6\} \)/\1/p' > reported
tr ' ' '\n' < words | grep -v -x -e - | python3 "$top/texts/classes.py" > tabled
check 'each drawn word is reported as the table of classes has it' cmp reported tabled
sed -n 's/^text  *//p' "$top/texts/classes.txt" | sed 's/ {.*//' | while read -r kind; do
    grep -q "^[0-9A-F]\{6\} $kind" reported || echo "no word is $kind"
done > err
check 'some word is of each class' [ ! -s err ]
finish
