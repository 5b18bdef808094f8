"""What this program has to know of the kit, whose text it does not read."""

# antt's own notation, which names nothing
NOTATION = set('→ × = : _ | ↦'.split())
# words of terms that bind or compute, and are read by terms.py
FORMS = set('λ let in record Type'.split())
# the names of the prelude that are open in every file
PRELUDE = {
    '⊥': 'Prim.⊥', 'Unit': 'Prim.Unit', 'tt': 'Prim.tt', '¬': 'Prim.¬◌', '¬◌': 'Prim.¬◌', 'absurd': 'Prim.absurd',
}
# what a clause of a contract calls the value that the call gives back
RESULT = 'result'
# fields of the kit's records: a lent parameter has its value now, or one before the call and one after it; a tuple's
# fields are numbers
FIELDS = {'now', 'old', 'new'}
# of the kit's names, those that a pattern takes apart; any other that a pattern writes is an error
CONSTRUCTORS = set('zero suc true false [] ◌∷◌ none some Ok Err Some None nan inf fin pos negsuc'.split())
# .. and those that a pattern may bind anew, as they are no constructors
HIDDEN = set()
