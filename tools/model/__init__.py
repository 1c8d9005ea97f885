"""A model of the protocol, by which tools/answers computes the answers of stored cases.

It shares nothing with the crates, neither code nor tables: it was written from a description of the protocol alone, by
somebody who had not seen them, so that a fault has to be made twice to stay unseen. So mend it by docs/protocol.md, and
never by what a crate does or prints. `told_frames`, `told_bytes`, `listed_frames`, `listing`, `judge`, `happening` and
`cases` were added by somebody who had read docs/testing.md and docs/letters.md for how lines are laid out, and
`generator`, the script of a number by docs/generator.md, by whoever wrote the crate of that script.

`values`, `writing`, `reading` and `keys` have what is sent; `kinds` what objects do; `classes`, `plans`, `replica` and
`client` what parties do; `world`, `audit` and `points` what a run is; `script` and `player` make the run of a script,
and `report` writes it. tools/frame makes frames with its keys and its bytes.
"""
