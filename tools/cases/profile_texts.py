"""Texts that each hold one rule of the YAML profile which no other case holds: with that rule the other way the answer here is another,
and of all other texts the same. Each has its tree, or its refusal, and above it the rule. The answers were written by hand, and an
independent reader gives the same."""

ITEMS = "- "

TEXTS = [
    # A line of `---` alone is a mark between documents only where it has no indent.
    (r"a:\n  ---\n", "1:1{1:1<a>=2:3<--->}"),
    # A `%` begins a directive in column 1 alone; elsewhere it begins nothing.
    (r"a: b\nc:\n  %y\n", "refused 3:3 14 Unread"),
    # A mark between documents is told wherever reading comes to its line, also within brackets.
    (r"[a\n---\nb]\n", "refused 2:1 17 Documents"),
    # One line `---` may come first. A second one is another document.
    (r"---\n---\na: b", "refused 2:1 17 Documents"),
    # A `:` begins a scalar only where a character follows that may belong to it.
    (r"[:]", "refused 1:2 14 Unread"),
    # A `?` with a blank behind it begins a key of its own, also where nothing follows the blank.
    (r"? \n", "refused 1:1 17 QuestionKey"),
    # A `?` at the end of its line begins nothing.
    (r"?\n", "refused 1:1 14 Unread"),
    # `\/` in double quotes is a slash.
    (r'a: "\\/"', "1:1{1:1<a>=1:4</>}"),
    # Of two escapes that are not known the first is told.
    (r'a: "\\q\\r"', "refused 1:5 17 Escape"),
    # The header of a block scalar in the place of a later key is a block scalar out of its place.
    (r"a: 1\n| \n", "refused 2:1 17 BlockScalar"),
    # A list as key of a map has its items one level deeper than itself, and the first key is no exception.
    (62 * ITEMS + "[x]: y", "refused 1:126 16 TooDeep"),
    # At a place that is too deep an open quote is told before the depth.
    (64 * ITEMS + "'", "refused 1:129 13 BadQuote"),
    # So is a character that begins nothing.
    (64 * ITEMS + "]", "refused 1:129 14 Unread"),
    # The first node that is too deep is told, which is the list and not what stands in it.
    (65 * ITEMS + "x", "refused 1:129 16 TooDeep"),
    # An empty scalar has a depth too, and a place one byte past its `-`.
    (63 * ITEMS + r"-\n", "refused 1:128 16 TooDeep"),
    # A key that is there already is told before its `:` is looked for.
    (r"a: 1\na", "refused 2:1 15 TwiceKey"),
    # So it is within brackets.
    (r"{a: 1, a", "refused 1:8 15 TwiceKey"),
    # Keys are equal where their values are too: maps in lists as keys.
    ("{[{a: 1}]: x, [{a: 2}]: y}", "1:1{1:2[1:3{1:4<a>=1:7<1>}]=1:12<x> 1:15[1:16{1:17<a>=1:20<2>}]=1:25<y>}"),
    # Maps in keys are equal pair by pair, in their order.
    ("{[{a: 1, b: 2}]: x, [{b: 2, a: 1}]: y}", "1:1{1:2[1:3{1:4<a>=1:7<1> 1:10<b>=1:13<2>}]=1:18<x> 1:21[1:22{1:23<b>=1:26<2> 1:29<a>=1:32<1>}]=1:37<y>}"),
    # A key stands on one line: a list over two lines is no first key.
    (r"[a,\nb]: c", "refused 2:3 14 Unread"),
    # Nor is it a later key.
    (r"a: 1\n[b,\nc]: d", "refused 3:3 14 Unread"),
    # Nor is a scalar over two lines a key within brackets.
    (r"{a\n b: c}", "refused 2:3 14 Unread"),
    # A map within brackets is no key.
    ("{a: 1}: b", "refused 1:7 14 Unread"),
    # Nor is it the key of a single pair.
    ("[{a}: b]", "refused 1:5 14 Unread"),
    # Outside brackets a `:` needs a blank behind it, also behind a quoted key.
    ('"a":b', "refused 1:4 14 Unread"),
    # What is missing at the end of a text is told behind the last line that is not blank, which may be a comment.
    (r"[a\n# c\n", "refused 2:4 14 Unread"),
    # A comment ends a scalar within brackets.
    (r"[a\n# c\nb]", "refused 3:1 14 Unread"),
    # A carriage return alone at the end of a file ends no line, and belongs to the scalar.
    (r"a\r", r"1:1<a\r>"),
]
