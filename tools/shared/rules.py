"""The rules in words, what to do, and whose they are: short forms of docs/RULES.md, for the tools."""
import re

from . import profiles

WORDS = {
    1: 'the body is missing, is no object, or its @type isn\'t that of the response',
    2: 'a name is empty or has more than 512 bytes',
    3: 'the outer name and the resource\'s own name differ',
    4: 'the name stands twice in the response',
    5: 'the name is also removed in the same response',
    6: 'a field has another form than is read, or stands in both spellings',
    7: 'the cluster\'s type is neither STATIC nor EDS',
    8: 'the type is EDS, and edsClusterConfig is missing',
    9: 'edsClusterConfig is given, and the type isn\'t EDS',
    10: 'a config source isn\'t exactly one of ads and self, or its timeout is negative',
    11: 'connectTimeout is given and isn\'t positive',
    12: 'a host has no usable address and port',
    13: 'a host\'s weight, a sum of weights or a priority is out of range',
    14: 'the listener\'s address isn\'t a usable TCP address and port',
    15: 'a live listener of another name has this address and port',
    16: 'the listener hasn\'t exactly one filter chain without a match',
    17: 'a filter chain hasn\'t exactly one connection manager or TCP proxy',
    18: 'a connection manager hasn\'t exactly one of rds and routeConfig',
    19: 'a virtual host has no name or no domain',
    20: 'a domain stands twice in the route configuration',
    21: 'a match isn\'t exactly one of prefix, path and pathSeparatedPrefix, or has another condition',
    22: 'a route\'s action, its cluster specifier or its status isn\'t one that is read',
    23: 'the name of a cluster is empty',
    24: 'the weights of weightedClusters sum to 0 or to more than 4294967295',
    25: 'ttl is given and isn\'t positive',
}

# What the rules say by the profile envoy, where that is something else.
WORDS_OF_ENVOY = {
    10: 'a config source isn\'t exactly one of the five kinds, or its timeout is negative',
    12: 'a host has no usable address',
    14: 'the listener has no usable address',
    15: 'a live listener of another name has this address and port by the same protocol',
    16: 'the listener has no filter chain, or a range of addresses in a chain\'s match isn\'t one',
    17: 'a filter chain has several connection managers or TCP proxies, or an API listener has no connection manager',
    18: 'a connection manager hasn\'t exactly one of rds, routeConfig and scopedRoutes',
    21: 'a match hasn\'t exactly one kind of path, or has a condition on a header or query parameter that isn\'t one',
    22: 'a route hasn\'t exactly one action, or its target exactly one cluster specifier; or its status is out of range',
    26: 'two filter chains could take the same connection',
    27: 'a server name of a chain\'s match is empty, or has a * but for a leading *.',
    28: 'a secret hasn\'t exactly one of tlsCertificate, sessionTicketKeys, validationContext and genericSecret',
    29: 'an extension has no typedConfig, or that one no @type',
}

ADVICE = {
    1: 'send each type in a response of its own. A state-of-the-world response has to be made incremental first',
    4: 'send each resource once in a response',
    5: 'either update the name or remove it',
    15: 'remove the other listener in the same response, or use another port',
}

ENVOY, PROFILE, UNKNOWN = 'Envoy too', 'profile', 'not known'

# Whose a rule is: that of each complaint of it whose type, path and words the pattern fits, the first that does. Made from documentation and
# memory, and not checked on Envoy: docs/RULES.md, which `tools/check` holds against this table, and docs/ENVOY.md.
WHOSE = [
    (1, r'@type', ENVOY), (1, r'', UNKNOWN),
    (2, r' bytes, and ', UNKNOWN), (2, r'^lds .* is empty$', PROFILE), (2, r'', ENVOY),
    (3, r'', UNKNOWN), (5, r'', UNKNOWN), (6, r'', UNKNOWN),
    (7, r'', PROFILE), (8, r'', ENVOY), (9, r'', ENVOY),
    (10, r'is given: only ads and self', PROFILE), (10, r'negative', UNKNOWN), (10, r'', ENVOY),
    (11, r'', ENVOY),
    (12, r'socket address|portValue is missing', PROFILE), (12, r'', ENVOY),
    (13, r'', ENVOY),
    (14, r'UDP|socket address|portValue is missing', PROFILE), (14, r'', ENVOY),
    (15, r'', ENVOY),
    (16, r'has 0 chains', ENVOY), (16, r'', PROFILE),
    (17, r'has 0 ', PROFILE), (17, r'', ENVOY),
    (18, r'scopedRoutes|scoped_routes', PROFILE), (18, r'', ENVOY),
    (19, r'', ENVOY), (20, r'', ENVOY),
    (21, r'has 0 of', ENVOY), (21, r'', PROFILE),
    (22, r'is given', PROFILE), (22, r'', ENVOY),
    (23, r'', ENVOY), (24, r'', ENVOY), (25, r'', UNKNOWN),
]

# The same of the profile envoy, which takes what Envoy takes. Rules that aren't here are as above.
WHOSE_OF_ENVOY = [
    (10, r'negative', UNKNOWN), (10, r'', ENVOY),
    (12, r'portValue is missing', PROFILE), (12, r'makes an address', UNKNOWN), (12, r'', ENVOY),
    (14, r'portValue is missing', PROFILE), (14, r'makes an address', UNKNOWN), (14, r'', ENVOY),
    (16, r'', ENVOY), (17, r'', ENVOY), (18, r'', ENVOY), (21, r'', ENVOY), (22, r'', ENVOY),
    (26, r'', ENVOY), (27, r'empty', UNKNOWN), (27, r'', ENVOY), (28, r'has 0 of', UNKNOWN), (28, r'', ENVOY), (29, r'', ENVOY),
]
WHOSE_OF_ENVOY += [case for case in WHOSE if case[0] not in {rule for rule, _, _ in WHOSE_OF_ENVOY}]

# Complaints that something is missing, which are no complaints where another member in its place is given.
MISSING = r'has 0 (of|chains)|has neither'


def words(rule, profile, unknown=''):
    """A rule in words; those of `unknown` where there is no such rule."""
    return (WORDS_OF_ENVOY.get(rule) if profile == profiles.ENVOY else None) or WORDS.get(rule, unknown)


def telling(complaints):
    """The complaints without those that something is missing where another member in its place is given."""
    given = any(words.startswith('is given') for _, words in complaints)
    return [(path, words) for path, words in complaints if not (given and re.search(MISSING, words))]


def whose(rule, kind, complaints, profile=profiles.OWN):
    """Whether Envoy refuses a resource of this kind too that this rule refuses: `Envoy too`, `profile` (this profile alone does) or
    `not known`. The complaints are those of this rule, each a path and words."""
    if rule == 4:
        return ENVOY if kind in ('cds', 'lds') else UNKNOWN
    found, cases = set(), WHOSE_OF_ENVOY if profile == profiles.ENVOY else WHOSE
    for path, words in telling(complaints) or [('', '')]:
        found.add(next((of for number, pattern, of in cases if number == rule and re.search(pattern, f'{kind} {path} {words}')), UNKNOWN))
    return next((of for of in (ENVOY, UNKNOWN, PROFILE) if of in found), UNKNOWN)
