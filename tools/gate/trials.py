"""How the tools of the gate count what they try: each trial is a pair of what is said of it and whether it holds."""


def count(trials):
    """Prints the trials that don't hold, as they come, and the last line, 'N passed, M failed'; gives the status to end with. Where nothing was tried,
    that has failed too."""
    passed = failed = 0
    for said, holds in trials:
        if holds:
            passed += 1
        else:
            failed += 1
            print(f"failed: {said}", flush=True)
    print(f"{passed} passed, {failed} failed")
    return 1 if failed or not passed else 0
