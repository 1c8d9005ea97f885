"""Random runs and what is said of them, outside all proofs: tools/hunt, tools/script, tools/expect, tools/state and
tools/history. docs/exploring.md says what each is for.

`names`, `letters`, `front` and `plain` make plain scripts of lines that name letters; `options`, `operations`, `lies`
and `schedule` make random ones. `programs` runs them, `reports` reads what a program reports, and `linear`, `order` and
`checks` look at it; `coverage` counts what occurred, `smallest` makes a script that fails smaller, `quiet` ends a run
in quiet, `many` does all of this side by side, and `wrongs` does it for programs with wrong bodies. `happenings` and
`expected` tell what happens at the lines of a script, `states` what parties hold, and `histories` what others check.

The model of tools/model makes the runs on which scripts are built, and is changed by none of this.
"""
