"""The profiles of scripts: this project's own, which a header doesn't name, and `envoy`, which reads and waits as Envoy documents it."""

OWN, ENVOY = None, 'envoy'
# The profile of a script that a helper makes where nothing else is asked for, and the options that ask for one.
USUAL = ENVOY
OF_OPTIONS = {'--own-profile': OWN, '--envoy-profile': ENVOY}


def add_options(parser):
    """Adds the options to a parser: `profile` is the one that was given, or None."""
    group = parser.add_mutually_exclusive_group()
    for option in OF_OPTIONS:
        group.add_argument(option, dest='profile', action='store_const', const=option)


class Label(str):
    """Words for a person beside values that are compared: every label equals every other."""

    def __eq__(self, other):
        return isinstance(other, Label)

    def __ne__(self, other):
        return not self == other

    def __hash__(self):
        return 0
