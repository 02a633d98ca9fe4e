"""Reads documents as prose: their paragraphs, list items and rows of tables, each with its number of words."""
import re

MARKER = re.compile(r"(?:[-*+]|\d+\.)\s")


def blocks(text):
    """Each paragraph, list item and row of a table with the number of its first line; not what stands between fences."""
    begun, words, in_fence = 0, [], False
    for number, line in enumerate([*text.splitlines(), ""], 1):
        bare = line.strip()
        is_fence = bare.startswith("```")
        ends = is_fence or not bare or bare.startswith(("#", "<!--", "|")) or MARKER.match(bare)
        if ends and words:
            yield begun, words
            words = []
        if is_fence:
            in_fence = not in_fence
        elif bare.startswith("|") and not in_fence:
            yield number, bare.replace("|", " ").split()
        elif bare and not in_fence and not bare.startswith(("#", "<!--")):
            begun = begun if words else number
            words += bare.split()
