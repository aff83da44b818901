"""Requests as calls and lines have them."""


def request_of(call):
    """The ask and the names of a submit or a reclaiming; the ask of a census is None."""
    kind, args = call.call.split("-")[1], call.args
    if call.call.startswith("reclaim"):
        args = args[1:]
    if kind == "census":
        return None, ()
    return (("count", args[0]), args[1:]) if kind == "count" else ((kind,), args)


def ask_line(ask, names):
    if ask is None:
        return "ask census"
    return " ".join(["ask", *map(str, ask), *map(str, names)])
