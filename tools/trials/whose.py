"""Whose rule a refusal is, by the rule and by what breaks it."""
from shared import rules
from shared.profiles import ENVOY

CASES = [
    (1, 'cds', [('resource.@type', 'is that of a listener')], rules.ENVOY),
    (1, 'cds', [('resource', 'is missing')], rules.UNKNOWN),
    (2, 'lds', [('name', 'is empty')], rules.PROFILE),
    (2, 'cds', [('name', 'is empty')], rules.ENVOY),
    (2, 'lds', [('rds.routeConfigName', 'is missing, empty or too long')], rules.ENVOY),
    (4, 'lds', [], rules.ENVOY),
    (4, 'eds', [], rules.UNKNOWN),
    (7, 'cds', [('type', 'is LOGICAL_DNS: only STATIC and EDS are read')], rules.PROFILE),
    (10, 'cds', [('edsConfig', 'has neither ads nor self')], rules.ENVOY),
    (10, 'cds', [('edsConfig', 'has neither ads nor self'), ('edsConfig.apiConfigSource', 'is given: only ads and self are read')], rules.PROFILE),
    (12, 'eds', [('address.portValue', 'is 70000, and 65535 is the most')], rules.ENVOY),
    (14, 'lds', [('address.socketAddress.protocol', 'is UDP')], rules.PROFILE),
    (16, 'lds', [('filterChains', 'has 2 chains: exactly one is read')], rules.PROFILE),
    (16, 'lds', [('filterChains', 'has 0 chains: exactly one is read')], rules.ENVOY),
    (16, 'lds', [('filterChains', 'has 0 chains: exactly one is read'), ('defaultFilterChain', 'is given')], rules.PROFILE),
    (18, 'lds', [('hcm', 'has neither rds nor routeConfig'), ('hcm.scopedRoutes', 'is given')], rules.PROFILE),
    (21, 'rds', [('match', 'has 0 of prefix, path and pathSeparatedPrefix: exactly one is wanted'), ('match.safeRegex', 'is given')], rules.PROFILE),
    (21, 'rds', [('match', 'has 0 of prefix, path and pathSeparatedPrefix: exactly one is wanted')], rules.ENVOY),
    (22, 'rds', [('directResponse.status', 'is 99: 200 to 599 are read')], rules.ENVOY),
    (25, 'eds', [('ttl', 'is given and not positive')], rules.UNKNOWN),
]
# The same by the profile envoy.
CASES_OF_ENVOY = [
    (2, 'lds', [('name', 'is empty')], rules.PROFILE),
    (10, 'cds', [('edsConfig', 'has 2 of ads, self, path, pathConfigSource and apiConfigSource: exactly one is wanted')], rules.ENVOY),
    (10, 'cds', [('edsConfig.initialFetchTimeout', 'is negative')], rules.UNKNOWN),
    (12, 'eds', [('address.socketAddress.portValue', 'is missing')], rules.PROFILE),
    (14, 'lds', [('address.socketAddress.portValue', 'is missing')], rules.PROFILE),
    (14, 'lds', [('address', 'is missing')], rules.ENVOY),
    (16, 'lds', [('filterChains', 'has 0 chains, and there is no defaultFilterChain')], rules.ENVOY),
    (21, 'rds', [('match.headers[0]', 'has 2 tests: one is the most')], rules.ENVOY),
    (26, 'lds', [('filterChains[1].filterChainMatch', 'fits what that of filterChains[0] fits as well')], rules.ENVOY),
    (27, 'lds', [('filterChainMatch.serverNames', 'has an empty name')], rules.UNKNOWN),
    (28, 'sds', [('resource', 'has 0 of tlsCertificate, sessionTicketKeys, validationContext and genericSecret: exactly one is wanted')], rules.UNKNOWN),
    (28, 'sds', [('resource', 'has 2 of tlsCertificate, sessionTicketKeys, validationContext and genericSecret: exactly one is wanted')], rules.ENVOY),
    (29, 'ecds', [('resource.typedConfig', 'is missing')], rules.ENVOY),
]


def run(check):
    for rule, kind, complaints, wanted in CASES:
        found = rules.whose(rule, kind, complaints)
        check(found == wanted, f'V{rule} of {kind} by {complaints} is told as {found}, not {wanted}')
    for rule, kind, complaints, wanted in CASES_OF_ENVOY:
        found = rules.whose(rule, kind, complaints, ENVOY)
        check(found == wanted, f'by the profile envoy V{rule} of {kind} by {complaints} is told as {found}, not {wanted}')
    for rule in {**rules.WORDS, **rules.WORDS_OF_ENVOY}:
        check(rule == 4 or any(number == rule and not pattern for number, pattern, _ in rules.WHOSE_OF_ENVOY), f'V{rule} has no last case by the profile envoy')
    for rule in rules.WORDS:
        check(rule == 4 or any(number == rule and not pattern for number, pattern, _ in rules.WHOSE), f'V{rule} has no last case')
