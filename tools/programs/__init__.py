"""What tools/program, tools/build, tools/cases and tools/wrong share: `sources` has the crates and what a program is
made of, `unproved` compiles a program without proof, `kept` has the programs that stand in the folder out/ at the top,
and `process` how the tools speak and end.
"""
