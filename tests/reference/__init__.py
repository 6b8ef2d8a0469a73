"""Document 01 in Python, with the requests of document 02, to compare the kit with. Written from the documents, not from the kit.

Read beside document 01, in its order: parameters, polynomials, challenge, signing, encodings,
refusals; then library (the entries that lend buffers) and session (the player).
"""
