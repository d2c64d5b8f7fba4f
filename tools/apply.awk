# Applies must-fail edits and slips: reads lines EDIT FOLDER, and applies each edit to the files of a crate's folder, on paper or, with
# write=1, in the files. Each old text has to stand exactly once in its file when its turn comes, and the edit has to change something.
# Says what is wrong.
function whole(path,   line, all) {
  if (path in text) return text[path]
  while ((getline line < path) > 0) all = all line "\n"
  close(path)
  return text[path] = all
}
{
  wrong = pairs = file = old = ""
  split("", changed)
  while ((getline line < $1) > 0) {
    if (line ~ /^file: /) file = substr(line, 7)
    if (line ~ /^old: /) old = substr(line, 6)
    if (line !~ /^new:/) continue
    fresh = substr(line, 5)
    sub(/^ /, "", fresh)
    path = $2 "/" file
    all = path in changed ? changed[path] : whole(path)
    at = old == "" ? 0 : index(all, old)
    if (!at || index(substr(all, at + 1), old)) { wrong = "an old text does not stand exactly once in " file; break }
    changed[path] = substr(all, 1, at - 1) fresh substr(all, at + length(old))
    old = ""
    pairs++
  }
  close($1)
  if (wrong == "" && !pairs) wrong = "it has no old and new text"
  if (wrong == "") {
    same = 1
    for (path in changed) if (changed[path] != whole(path)) same = 0
    if (same) wrong = "it changes nothing"
  }
  if (wrong != "") { print $1 ": " wrong; bad = 1 }
  else if (write) for (path in changed) { printf "%s", changed[path] >path; close(path); text[path] = changed[path] }
}
END { exit bad }
