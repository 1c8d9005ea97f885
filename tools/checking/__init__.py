"""What tools/check looks at, a subject in each file. A rule is given the texts of the repository by their paths, and
yields its faults: the path, the line, and what is wrong.

`texts` reads the files, and `definitions` takes those of definitions and lemmas apart. `pages` looks at the paths that
documents name, `first_page` at what the clauses of the program rest upon, `promises` at calls and their clauses,
`proof_page` at the names of lemmas, `limits` at numbers, `scripts` at refusals, topics and examples, `rooms` at the
crates and their headings, `names` and `lemmas` at what is defined and stated, `edits` at wrong bodies, and `lengths` at
how long things are.
"""
