# Whether the tools are here that the library is linked with. Else $tool is the first that is missing, and this is said.
can_link_library() {
  for tool in cc ar ld objcopy; do
    if ! command -v "$tool" >/dev/null; then
      echo "snapjudge: there is no $tool, so the library is left out" >&2
      return 1
    fi
  done
}
