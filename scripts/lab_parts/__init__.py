"""What `scripts/lab` is made of.

    main ──── its words, and how it plays a script
     ├── hints ─────── what may help with a line that doesn't fit, by the grammar in `marks`
     ├── replies ───── what may help with a reply
     ├── words ─────── what may help with words that nobody understands
     ├── progress ──── how far a long run is
     ├── show ──────── a script with its replies, and what stands under each line
     └── drawing/ ──── what a script did, step by step: a page, a picture, and locks as text
"""
