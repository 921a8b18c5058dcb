"""A picture of a script's run, and who has the lock: for `scripts/lab`.

    reading ── script and trace as lines
       │
      fold ─── what the trace doesn't say, step by step, over `records`, which a site keeps
       │
     words ─── a sentence for each step
       │
       ├── picture ── the steps as SVG, with the looks of `marks` and picture.css
       │      │
       │    page ──── that, page.html, page.css and page.js as one HTML file
       │
       ├── locks ──── the steps as text, for `show --locks`
       │
       └── idle ───── which lines of a schedule did nothing, and why

`history` has the trace's lines by the script's line that made them happen, for `show --trace`.
"""
