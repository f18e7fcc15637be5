"""A model of networks, updates and switches, written from the texts alone. It shares nothing with the program.

policy       policies, and the rows that stand for them
document     documents and schedules, as text
switch       tables, pending flow mods and barriers
coordinator  phases, their batches, and sessions
world        all of these with channels and packets: what each event does, and where it can happen
report       what `nkctl simulate` has to print
"""
