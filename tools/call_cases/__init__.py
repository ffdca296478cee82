"""Cases of the program `vectors`: what it reads, and what it must write by the reference reader.

    stream    runs of words as they are given, sums, a case's words and lines
    tables    load and the sets
    schedule  a row's schedule: each call's words and what the reference answers
    rows      the rows: samples, damaged areas, random schedules, limits, entries
    texts     the three lines of `rows` read in pieces, and its answer's lines
"""
