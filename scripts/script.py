"""How a script takes its words: by the parameters of its main."""
import argparse
import inspect
import sys


def run(main):
    """Calls main with the words of the command line, and exits with what it returns.

    A parameter is a word, and *ones are any number of words. A keyword parameter is an option: a flag if its default is False, one that may be repeated if it is a
    tuple, and else one with a word of the default's type. The help is the docstrings of the script and of main.
    """
    docs = sys.modules[main.__module__].__doc__, inspect.getdoc(main)
    asked = argparse.ArgumentParser(description="\n\n".join(filter(None, docs)), formatter_class=argparse.RawDescriptionHelpFormatter)
    words, defaults = [], {}
    for name, it in inspect.signature(main).parameters.items():
        if it.kind is it.KEYWORD_ONLY:
            defaults[name] = it.default
            how = {"action": "store_true"} if it.default is False else {"action": "append"} if it.default == () else {"type": type(it.default)}
            asked.add_argument(f"{'-' if len(name) == 1 else '--'}{name}", **how)
        else:
            words.append(name)
            asked.add_argument(name, nargs="*" if it.kind is it.VAR_POSITIONAL else None, metavar=name.upper().removesuffix("S"))
    given = vars(asked.parse_intermixed_args())
    taken = [one for it in words for one in (given[it] if isinstance(given[it], list) else [given[it]])]
    sys.exit(main(*taken, **{name: default if given[name] is None else given[name] for name, default in defaults.items()}))
