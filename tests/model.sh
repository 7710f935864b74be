# The model: the program agrees with it on random cases, and the expected outputs of pages, examples and tests are its own.

says=yes with_python 'the model on random cases' "$here/differential.py" "$program" 100 1
with_python 'expected outputs that are not those of the model' "$here/../tools/expected.py"
