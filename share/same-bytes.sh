# What shows that the same sources and tools give the same bytes. share/test-package.sh reads this file.

# The second making has another folder, zone, mask of modes and order of what Python keeps in sets.
make() {
  (cd "$1" && umask "$2" && env TZ="$3" PYTHONHASHSEED="$4" LC_ALL="$5" "$top/package" "${words[@]}" made)
}

# Whether two folders have the same files of the same bytes; the first has some.
same() {
  [ -n "$(ls "$1")" ] && diff -r "$1" "$2"
}

# Packs once more what the archive has, by a copy of the scripts in a folder of another name, for which the files are new. What
# was packed is proved already, and so nothing is proved twice.
packed_elsewhere() {
  local parts=$room/parts
  copy="$room/an other tree"
  mkdir -p "$copy" "$parts" "$room/alone/share" &&
    tar cf - --exclude=.git --exclude=out --exclude=./built --exclude=./ffi/build --exclude=target --exclude=__pycache__ . | tar xmf - -C "$copy" &&
    tar xmf "$archive" -C "$parts" --strip-components=1 &&
    cp -r "$parts/bin" "$parts/lib" "$parts/include" "$room/alone" &&
    cp -r "$parts/share/man" "$parts/share/bash-completion" "$parts/share/zsh" "$parts/share/fish" "$room/alone/share" &&
    (cd / && umask 077 && TZ=America/Lima PYTHONHASHSEED=3 python3 -B "$copy/share/package.py" "$room/alone" "$parts/lib" \
      "$(head -n 1 "$parts/$documents/PROVED")" "$(sed -n 's/^sources //p' "$parts/$documents/PROVED")" "$room/elsewhere") &&
    same "$room/elsewhere" "$dist"
}

# Whether each file of the archive has the day of the release, and no other time.
has_its_day() {
  [ "$(tar tvf "$archive" --full-time --utc | awk '{ print $4, $5 }' | sort -u)" = "$(sed -n 's/^date-released: //p' CITATION.cff) 00:00:00" ]
}

# tells STATUS WORDS: tries what the copy says of the sums of the packages there, with its status
tells() {
  local said status
  said=$("$copy/share/sums.py" compare "$room/elsewhere")
  status=$?
  [ "$status" = "$1" ] && [[ $said == *"$2"* ]] || { echo "$said, with status $status" && return 1; }
}

# Sums that are kept are those of these packages, and of no others; and of no other sources.
keeps_sums() {
  "$copy/share/sums.py" write "$room/elsewhere" && tells 0 "the sums are those" &&
    (cd "$room/elsewhere" && grep -E "^[0-9a-f]{64}  " "$copy/docs/INSTALL.md" | sha256sum --quiet --strict -c) &&
    sed -i '$s/^./x/' "$room/elsewhere/SHA256SUMS" && tells 1 "other sums" &&
    : >"$copy/examples/one-more.csv" && tells 3 "other packages: sources"
}

# The packages have the sums that were kept when these sources were released.
try_kept_sums() {
  local why
  why=$(share/sums.py compare "$dist")
  case $? in
    3) skip "the kept sums" "$why" ;;
    0) try "the kept sums" true ;;
    *) try "the kept sums" eval 'echo "$why"; false' ;;
  esac
}

# Compiles the program and the library again in the copy. It has no more than the proved libraries of the crates, as links if it
# can, and the prover finds them unchanged there.
compiled_elsewhere() {
  local name
  for name in crates/*/out/rlib; do
    mkdir -p "$copy/${name%/*}" || return
    cp -al "$name" "$copy/$name" 2>/dev/null || { rm -rf "${copy:?}/$name" && cp -a "$name" "$copy/$name"; } || return
  done
  rm -f "$copy/examples/one-more.csv"
  (cd "$copy" && python3 -B share/prove.py --times "$room/times" --beside snap_c snapjudge --cpu=x86-64-v2 </dev/null && ffi/build.sh "$room/library" </dev/null) &&
    [ "$(grep -v '^#' "$room/times" | cut -d ' ' -f 1 | sort | tr '\n' ' ')" = "snap_c snapjudge " ]
}

same_program() {
  compiled_elsewhere && cmp "$copy/crates/snapjudge/out/snapjudge" "$room/parts/bin/snapjudge"
}

same_library() {
  cmp "$room/library/libsnapjudge.a" "$room/parts/lib/libsnapjudge.a" && cmp "$room/library/libsnapjudge.so" "$room/parts/lib/libsnapjudge.so"
}
