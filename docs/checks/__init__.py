"""The checks that `docs/check` runs.

    repository    what all share: the files, the faults and the counts, and how a page is read
    sources       what the sources have: names, public functions, contracts, wrong versions
    trace         docs/TRACE.md: its generated tables, the contracts and clauses that it names
    pages         names, paths and links of the pages, and the words that no file may say
    rules         docs/RULES.md: its rules, calls, citations and numbers
    copies        what stands in several places: the version, and the sentences of refusals
    examples      examples of the pages: typed lines with their answers, and blocks of files
"""
