"""What `bin/session` does: session files written from text, shown and drawn.

sets, commands and refusals are tables, which README repeats; pack and show go by them. Nothing that the kit proves is worked out here: rows come
from the kit's own player (played).
"""
