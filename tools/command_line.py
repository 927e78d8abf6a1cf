"""What each argument of deilmuko is, for tools that run it: an option, its value, or a path."""

# The options whose value may be the next argument.
VALUED = {'--base-dir', '--dest-dir', '--more-maps', '--seed', '--list-file', '--max-file', '--jobs'}


def parts(words):
    """Of each argument behind the command what stands in front of its text, the option whose value the text is, and the text.

    A path has no option. An option without a value, or whose value is the next argument, has no text."""
    waiting, only_paths = None, False
    for word in words[1:]:
        name, equals, value = word.partition('=')
        if waiting:
            # A text that begins with a dash is no value here.
            yield (word, waiting, None) if word.startswith('-') else ('', waiting, word)
            waiting = None
        elif only_paths or not word.startswith('-') or word == '-':
            yield '', None, word
        elif equals:
            yield name + equals, name, value
        else:
            yield word, word, None
            only_paths = word == '--'
            waiting = word if word in VALUED else None


def paths(words):
    """The paths among the words, without those that are an option's value."""
    return [text for _, option, text in parts(words) if option is None]


def value(words, name):
    """The value of an option, or None."""
    return next((text for _, option, text in parts(words) if option == name and text is not None), None)
