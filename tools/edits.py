"""What a must-fail edit's refusal is worth, as rt tells it."""
import os, re

# Refusals that say nothing of a fact: the proof names something that is not there any more, or the prover gave up.
UNFIT = ['only because a proof file names', 'only by a limit of the prover']

def edits_of(crate, folders=('must-fail', 'edits')):
    """The edits of a crate, as paths: those of the gate in must-fail/, the others in edits/."""
    places = ['crates/%s/%s' % (crate, folder) for folder in folders]
    return [os.path.join(place, name) for place in places if os.path.isdir(place) for name in sorted(os.listdir(place)) if name.endswith('.edit')]

def told_in(said):
    """What rt said of each edit, by NAME/LABEL."""
    return {'%s/%s' % (crate, label): words for crate, label, words in re.findall(r'^rt: must-fail (\w+)/([\w.-]+)\.edit: (.*)$', said, re.M)}

def verdict(words):
    """Whether the crate is refused for a fact with an edit of which rt said these words, and in words."""
    if words is None:
        return False, 'rt said nothing of it'
    if not words.startswith('refused, as it must be'):
        return False, words
    if any(unfit in words for unfit in UNFIT):
        return False, 'it is refused for no fact: ' + words
    return True, words[:200]
