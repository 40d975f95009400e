# Tries the sums of many files. share/test.sh reads this file: it has `expect`, and $room is the folder.
mkdir sums sums/8.csv
cp "$examples/atomic-run.csv" sums/1.csv
cp "$examples/recorded-1.csv" sums/2.csv
cp "$examples/stale-view.csv" sums/3.csv
cp "$examples/skipped-number.csv" sums/4.csv
cp "$examples/new-old-inversion.csv" sums/6.csv
cp "$examples/atomic-run.csv" sums/7.csv
for workers in 1 2 8; do
  expect "the sums of each kind by $workers workers" 4 "files 8
atomic 2 first sums/1.csv
only-regular 2 first sums/2.csv
not-regular 1 first sums/3.csv
refused 1 first sums/4.csv
failed 2 first sums/5.csv
" ./second check --summary --workers "$workers" sums/1.csv sums/2.csv sums/3.csv sums/4.csv sums/5.csv sums/6.csv sums/7.csv sums/8.csv
  expect_said "why two have no status" "snapjudge: sums/5.csv: no such file
snapjudge: sums/8.csv: is a directory; check -r judges the files below it"
  expect "the sums of more files than a round has, by $workers workers" 2 "files 601
atomic 600 first sums/7.csv
only-regular 0
not-regular 1 first sums/3.csv
refused 0
failed 0
" sh -c 'many=$(for n in $(seq 300); do echo sums/7.csv; done); ./second check --summary --workers "$1" $many sums/3.csv $many' sh "$workers"
done
expect "the first in the order of the names" 4 "files 8
atomic 2 first sums/7.csv
only-regular 2 first sums/6.csv
not-regular 1 first sums/3.csv
refused 1 first sums/4.csv
failed 2 first sums/8.csv
" ./second check sums/8.csv sums/7.csv sums/6.csv sums/5.csv sums/4.csv sums/3.csv sums/2.csv sums/1.csv --summary
expect "the sums of one file" 2 "files 1
atomic 0
only-regular 0
not-regular 1 first sums/3.csv
refused 0
failed 0
" ./second check --summary sums/3.csv
expect "the sums of standard input" 3 "files 1
atomic 0
only-regular 0
not-regular 0
refused 1 first -
failed 0
" sh -c 'echo x | ./second check --summary'
expect "the sums of too few views" 3 "files 1
atomic 0
only-regular 0
not-regular 0
refused 1 first sums/1.csv
failed 0
" ./second check --summary --views 32768 sums/1.csv
expect_said "why it is refused" "sums/1.csv: refused: fewer than 32768 views"
cp sums/3.csv 'sums/a
b\c.csv'
expect "a name in the sums as in reports" 2 'files 1
atomic 0
only-regular 0
not-regular 1 first sums/a\nb\\c.csv
refused 0
failed 0
' ./second check --summary 'sums/a
b\c.csv'
expect "the sums, and a full disk" 4 "" sh -c "./second check --summary sums/1.csv sums/3.csv >/dev/full"
expect_said "the reason" "snapjudge: write failed"
expect "sums of the verdicts alone" 5 "" ./second check --summary --quiet sums/1.csv
expect_said "the reason" "error: the argument '--summary' cannot be used with '--quiet'"
expect "sums as an object" 5 "" ./second check --format json --summary sums/1.csv
expect_said "the reason" "error: the argument '--summary' cannot be used with '--format json'"

# The same sums as those of the module that judges by many processes.
if [ -f "$top/ffi/build/libsnapjudge.so" ]; then
  if has python3 "the sums of the module"; then
    ./second check --summary sums/[1-7].csv sums/5.csv "sums/a
b\\c.csv" >ours 2>ours.err
    ours=$?
    printf x >>ours
    sums=$(cat ours)
    expect "the sums of the module" "$ours" "${sums%x}" env PYTHONPATH="$top/ffi/python" python3 -m snapjudge.cluster --workers 2 sums/[1-7].csv sums/5.csv "sums/a
b\\c.csv"
    said=$(cat ours.err)
    expect_said "its reasons" "$said"
  fi
else
  skip "the sums of the module" "ffi/build/libsnapjudge.so is not here"
fi
