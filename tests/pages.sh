# The examples of the pages: each prints what its page shows. What scripts write into pages is what they write now. The
# sources keep the habits that a script can see.

for page in README.md docs/GUIDE.md docs/FORMATS.md docs/CERTIFICATE.md examples/fleet/README.md examples/squadron/README.md \
  examples/windfarm/README.md; do
  with_python "the examples of $page" "$here/pages.py" "$program" "$here/../examples" "$here/../$page"
done
with_python 'the picture of the crates' "$here/../tools/crates_picture.py"
with_python 'the definitions to read' "$here/../tools/reading_list.py"
with_python 'the habits of the sources' "$here/habits.py" "$here/.."
