# What the program is made of. The launcher and .ci/program read this file, with the repository's folder in `top`.

# The lines of crates.txt, without comments, of a crate and of those of this repository that it stands on, each after those that it
# stands on.
crates_below() {
  awk -v root="$1" '
    function visit(crate,  below, i, n) {
      if (crate in seen || !(crate in line)) return
      seen[crate] = 1
      n = split(deps[crate], below, " ")
      for (i = 1; i <= n; i++) visit(below[i])
      print line[crate]
    }
    { sub(/#.*/, ""); at = index($0, ":") }
    at { split(substr($0, 1, at - 1), words, " "); deps[words[1]] = substr($0, at + 1); $1 = $1; line[words[1]] = $0 }
    END { visit(root) }' "$top/crates.txt"
}

# The folders of the repository with the sources of the program.
source_folders() {
  local name part
  while IFS=' :' read -r name _; do
    for part in src specs proofs; do
      [ ! -d "$top/crates/$name/$part" ] || printf 'crates/%s/%s\n' "$name" "$part"
    done
  done < <(crates_below map_cli)
}

# The checksum of all that the program is made of, by content: its crates' lines of crates.txt in any order, HANDLES, and the sources.
sources_checksum() (
  set -o pipefail
  cd "$top" && mapfile -t folders < <(source_folders) && [ "${#folders[@]}" -gt 0 ] || exit
  {
    crates_below map_cli | LC_ALL=C sort && cat HANDLES &&
      find "${folders[@]}" -type f \( -name '*.rt' -o -name '*.antt' \) -print0 | LC_ALL=C sort -z | xargs -0 sha256sum
  } | sha256sum | cut -c 1-64
)

# Whether no source is newer than a file, and none came or went since it was written.
is_newer_than_sources() {
  local folders newer
  mapfile -t folders < <(source_folders)
  newer=$(cd "$top" && find crates.txt HANDLES "${folders[@]}" -newer "$1" -print -quit) && [ -z "$newer" ]
}

# What bin/BUILD says under a word.
build_line() {
  sed -n "s/^$1 //p" "$top/bin/BUILD" 2> /dev/null
}
