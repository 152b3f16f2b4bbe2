# Sourced by wrong-definitions and refusals: what trying an edit has in common.

# apply_edit FOLDER EDIT: makes the replacements of EDIT in the crate at FOLDER, or says why it cannot. A 'file:' line names a
# file of the crate and holds for the 'old:' and 'new:' pairs after it; an old text stands once in its file. Other lines are passed over.
apply_edit() {
  local file='' old='' pairs=0 line text rest
  while IFS= read -r line || [ -n "$line" ]; do
    case $line in
    'file: '*) file=$1/${line#file: } ;;
    'old: '*) old=${line#old: } ;;
    'new:'*)
      line=${line#new:}
      if [ ! -f "$file" ] || [ -z "$old" ]; then echo "no file or no old text"; return; fi
      text=$(<"$file")
      rest=${text#*"$old"}
      if [ "$rest" = "$text" ]; then echo "not in the file: $old"; return; fi
      if [[ $rest == *"$old"* ]]; then echo "more than once in the file: $old"; return; fi
      printf '%s\n' "${text%%"$old"*}${line# }$rest" >"$file"
      old='' pairs=$((pairs + 1))
      ;;
    esac
  done <"$2"
  [ "$pairs" -gt 0 ] || echo "it replaces nothing"
}

# unfit ERROR: whether a refusal shows nothing about what its edit was to break: the edit only made a file unfit, or nothing was decided
unfit() { grep -qE 'has no `|has no field|is not in scope|a dimension|step limit|gave up|no proof of|expected a ' <<<"$1"; }

# each FUNCTION: runs it for each line of the input, with its words, as many at a time as there are processors
each() {
  local running=0 words
  while read -r -a words; do
    [ "$running" -lt "${RT_JOBS:-$(nproc)}" ] || { wait -n; running=$((running - 1)); }
    "$1" "${words[@]}" &
    running=$((running + 1))
  done
  wait
}

# count FILE TRIED: the last line, of the lines of FILE that start with 'ok: ' among so many tried; fails where one is missing
count() {
  local passed
  passed=$(grep -c '^ok: ' "$1")
  echo "$passed passed, $(($2 - passed)) failed"
  [ "$passed" = "$2" ]
}
