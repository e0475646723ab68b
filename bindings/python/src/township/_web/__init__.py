"""The page, and the JSON interface of `docs/HTTP.md`: `python -m township serve`.

`serving` is waitress, in several processes, and says how long a request may take. It calls the application: `guard`
refuses a request if it is not allowed, `app` finds its route, `given` reads its JSON and `basis` the plat, `answers`
and `tracts` ask the library, `drawn` adds the drawing, `refusals` and `replies` make JSON of what was found, and
`packing` packs it. `listed` reads lists as `batch` does, `doubts` finds the doubtful places of descriptions,
`known` remembers the land of descriptions, `overlapping` finds the overlaps of tracts, and `sectionlines` the places of
field notes that the page shows; `files` decodes files. `assets` loads the files of the page, `limits` lists the limits,
and `reached` finds the address that is shown.
All acreages are the library's.
"""
