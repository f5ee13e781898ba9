"""The keys of a table or an object: which of them are known, and for an unknown one the known one that may have been meant, so that what stands there is
looked at as well. It is installed too, so it knows nothing of this repository."""
from shared.mistakes.near import nearest
from shared.mistakes.words import shown


def taken(node, known):
    """For each known key of a table that it has, or has by another word, the byte at which the key begins and the value; and its unknown keys."""
    found = {key: node.value[key] for key in known if key in node.value}
    unknown = [key for key in node.value if key not in known]
    for key in unknown[:len(known)]:
        meant = nearest(key, known)
        if meant is not None and meant not in found:
            found[meant] = node.value[key]
    return found, unknown


def tell(findings, fault, path, node, known):
    """Adds the unknown keys of a table to what is found, and gives the known ones as `taken` does."""
    found, unknown = taken(node, known)
    for key in unknown:
        findings.add(fault, node.place(key), path, f"the key {shown(key)} isn't known", key, known)
    return found


def missing(findings, fault, path, node, key):
    """Adds that a key of a table is missing, where the table begins."""
    findings.add(fault, node.at, path, f"the key `{key}` is missing")
