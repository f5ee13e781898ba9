"""The word that may have been meant. It is installed too, so it knows nothing of this repository."""
import functools

# How many letters may be wrong at most, and how many words are compared with one at most: more than a script may have names of a kind.
MOST_WRONG, MOST_WORDS = 3, 256


def next_row(row, letter, other):
    """Of the fronts of the other word: how many letters are wrong, with one letter more of the word than in the row before."""
    found = [row[0] + 1]
    for at, second in enumerate(other, 1):
        found.append(min(row[at] + 1, found[-1] + 1, row[at - 1] + (letter != second)))
    return found


def distance(word, other, most):
    """How many letters have to be put in, left out or changed to make one word of the other, where these are no more than so many; else one more."""
    if abs(len(word) - len(other)) > most:
        return most + 1
    row = list(range(len(other) + 1))
    for letter in word:
        row = next_row(row, letter, other)
    return min(row[-1], most + 1)


@functools.lru_cache(maxsize=4096)
def nearest(word, known):
    """The nearest of some words to one that isn't among them, and of two that are as near the first; none where all are far: where more letters are wrong than
    three, or than half of the word's bytes. Capital letters are as good as small ones."""
    most = min(len(word.encode()) // 2, MOST_WRONG)
    least, found = most + 1, None
    for other in known[:MOST_WORDS]:
        far = 0 if word.lower() == other.lower() and word.isascii() else distance(word, other, most)
        if far < least:
            least, found = far, other
    return found
