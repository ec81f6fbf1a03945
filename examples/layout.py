"""Objects as text that people can read: a list that is too long for a line has its parts in lines of their own, further to the right."""

WIDTH = 80


class Parts(list):
    """A list, with the comments that stand before it, and what it begins and ends with."""

    def __init__(self, parts=(), comments=(), ends=("(", ")")):
        super().__init__(parts)
        self.comments = list(comments)
        self.ends = ends


def ends_of(thing):
    return getattr(thing, "ends", ("(", ")"))


def in_one_line(thing):
    if isinstance(thing, str):
        return thing
    first, last = ends_of(thing)
    return first + " ".join(map(in_one_line, thing)) + last


def comments_of(thing):
    return getattr(thing, "comments", [])


def has_comments(thing):
    """Whether a comment stands inside a list."""
    return not isinstance(thing, str) and any(comments_of(part) or has_comments(part) for part in thing)


def words_in_front(parts):
    return next((place for place, part in enumerate(parts) if not isinstance(part, str)), len(parts))


def lines_of(thing, room=WIDTH):
    """The lines of an object, without the comments before it. The words at the front of a list stay on its first line."""
    if isinstance(thing, str) or not thing or not has_comments(thing) and len(in_one_line(thing)) <= room:
        return [in_one_line(thing)]
    count = words_in_front(thing)
    first, last = ends_of(thing)
    indent = "  " if count else " " * len(first)
    lines = [indent + line for part in thing[count:] for line in (*comments_of(part), *lines_of(part, room - len(indent)))]
    if count:
        lines.insert(0, first + " ".join(thing[:count]))
    else:
        lines[0] = first + lines[0][len(first):]
    lines[-1] += last
    return lines


def text_of(thing):
    return "".join(line + "\n" for line in (*comments_of(thing), *lines_of(thing)))
