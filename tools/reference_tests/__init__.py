"""The tests of the reference reader, run by test_reference.py.

    expect       how a test says what it expects
    samples      every sample of document 01, and the corners of its refusals
    demands      accepted rows against derivations, schedules against the uncut row
    any_state    the one move of states that no start reaches
    area         the work area: encode, decode and the shape rules
    vectors      the vectors: the same seed, the same cases
"""
