# The scripts of the folder of examples, on a fleet of another depot whose tables have a byte order mark, CRLF and quotes.

harbour=$here/harbour

with_python 'lint judges damaged exports as the program does' "$here/damaged_exports.py" "$program" "$here/../examples" "$harbour"
if command -v python3 >/dev/null; then
  for script in $(python3 "$here/scripts.py" --list); do
    with_python "scripts: $script" "$here/scripts.py" "$program" "$here/../examples" "$harbour" "$script"
  done
else
  printf 'left out, for there is no python3: the scripts\n'
fi
