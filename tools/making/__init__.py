"""What tools/frame makes: frames of faulty parties, from words, a script's setup and letters of a run.

`words` has how words are read, `letters` what a run showed, `values` stamps, operations and answers, and `frames` whole
frames. Keys and bytes are those of tools/model.
"""
