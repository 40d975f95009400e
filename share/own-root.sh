# A root of its own, in which nothing is but the C library and the tools that are named: no toolchain, no sources and no home.
# share/test-package.sh reads this file.

# add_tools ROOT TOOL ..: copies tools to their own places in a root, each with the libraries that it loads
add_tools() {
  local root=$1 tool place
  shift
  for tool; do
    place=$(type -P "$tool") || return
    mkdir -p "$root/bin" && cp -L "$place" "$root/bin/${tool##*/}" && add_libraries "$root" "$place" || return
  done
}

# add_libraries ROOT FILE ..: copies what these files load, the C library among it
add_libraries() {
  local root=$1 file
  shift
  for file in $(ldd "$@" 2>/dev/null | awk '$1 ~ "^/" && NF > 1 { print $1; next } $2 == "=>" && $3 ~ "^/" { print $3 }' | sort -u); do
    mkdir -p "$root${file%/*}" && cp -L "$file" "$root$file" || return
  done
}

# add_python ROOT: copies Python and what comes with it, without the packages of others, and says where it is there
add_python() {
  local root=$1
  python3 -c '
import os, shutil, sys, sysconfig
root = sys.argv[1]
left_out = shutil.ignore_patterns("site-packages", "dist-packages", "test", "tests", "__pycache__", "config-*", "idlelib", "tkinter", "ensurepip")
for name in {sysconfig.get_path("stdlib"), sysconfig.get_path("platstdlib")}:
    shutil.copytree(name, root + name, ignore=left_out, dirs_exist_ok=True)
program = os.path.realpath(sys.executable)
os.makedirs(root + os.path.dirname(program), exist_ok=True)
shutil.copy(program, root + program)
print(program)
' "$root" >"$root/python" && add_libraries "$root" "$(cat "$root/python")" "$root$(python3 -c 'import sysconfig; print(sysconfig.get_path("platstdlib"))')"/lib-dynload/*.so
}

# in_root ROOT COMMAND ..: runs a command there, with this home and path alone
in_root() {
  local root=$1
  shift
  "${changes_root[@]}" "$root" /bin/env -i HOME=/home PATH=/bin "$@"
}

# Whether a process may take another folder as its root here. Else `changes_root` is empty.
can_change_root() {
  local way
  for way in chroot "unshare -r chroot"; do
    read -r -a changes_root <<<"$way"
    ! in_root "$1" /bin/sh -c : 2>/dev/null || return 0
  done
  changes_root=()
  return 1
}
