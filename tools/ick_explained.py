"""What the operators and words of statements do, each operator with a worked value."""

# What an operator does, and an expression with its value, or None.
OPERATORS = {
    "$": ("mingle: puts the bits of two numbers up to 65535 side by side, those of the left one at the odd places and those of "
          "the right one at the even places", "#1$#2", 6),
    "~": ("select: takes the bits of the left number at the places where the right one has ones, and packs them to the right",
          "#179~#201", 9),
    "&": ("unary and: each bit becomes the and of itself and its left neighbour. The highest bit's neighbour is the lowest",
          "#&77", 4),
    "V": ("unary or: each bit becomes the or of itself and its left neighbour. The highest bit's neighbour is the lowest",
          "#V77", 32879),
    "?": ("unary exclusive or: each bit says whether it and its left neighbour differ. The highest bit's neighbour is the lowest",
          "#?77", 32875),
    "<-": ("stores the value of its right side in the variable on its left, or gives an array the dimensions there", None, None),
    "SUB": ("names an element of an array by its subscripts, which begin at 1", None, None),
    "BY": ("stands between the dimensions of an array", None, None),
    "+": ("joins the parts of a list, and is no sum", None, None),
    "NEXT": ("goes to the label, and keeps the way back on the NEXT stack", None, None),
}
VARIABLES = {
    ".": "a onespot: a number from 0 to 65535", ":": "a twospot: a number from 0 to 4294967295",
    ",": "a tail: an array of numbers from 0 to 65535", ";": "a hybrid: an array of numbers from 0 to 4294967295",
}
# The gerund of each kind of statement that has one.
GERUNDS = {
    "CALCULATE": "CALCULATING", "NEXT": "NEXTING", "FORGET": "FORGETTING", "RESUME": "RESUMING", "STASH": "STASHING",
    "RETRIEVE": "RETRIEVING", "IGNORE": "IGNORING", "REMEMBER": "REMEMBERING", "ABSTAIN": "ABSTAINING",
    "REINSTATE": "REINSTATING", "WRITE-IN": "WRITING IN", "READ-OUT": "READING OUT",
}
# How the body of each kind of statement begins, if it is a word.
BODIES = {
    "READ OUT": "READ-OUT", "WRITE IN": "WRITE-IN", "STASH": "STASH", "RETRIEVE": "RETRIEVE", "IGNORE": "IGNORE",
    "REMEMBER": "REMEMBER", "ABSTAIN FROM": "ABSTAIN", "REINSTATE": "REINSTATE", "FORGET": "FORGET", "RESUME": "RESUME",
    "GIVE UP": "GIVE-UP",
}
GROUP = "A group is read as one operand. It begins and ends with the same mark, and groups within it alternate ' and \"."


def operator(text):
    """What an operator does, with its worked value."""
    does, program, value = OPERATORS[text]
    return f"`{text}` {does}." + (f" `{program}` is {value}." if program else "")


def mesh(text):
    return f"`{text}` is a constant." if text[1:2] in "&V?" else f"`{text}` is the number {int(text[1:])}."
