"""Texts without their soft hyphens."""

from ._results import wrong


def remove_soft_hyphens(text: str) -> str:
    """Returns a text without its soft hyphens, U+00AD. All else stays.

    So a text without soft hyphens comes back after Dictionary.text has put some in. A text that is no str is a TypeError.

    >>> from hyphenation import remove_soft_hyphens
    >>> remove_soft_hyphens("Of hy\\u00adphen\\u00ada\\u00adtion")
    'Of hyphenation'
    """
    if not isinstance(text, str):
        raise wrong(text)
    return str.replace(text, "\u00ad", "")
