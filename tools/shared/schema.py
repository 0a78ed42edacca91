"""A small validator for docs/script.schema.json: the words of JSON Schema that it uses, and no others."""

TYPES = {
    'object': lambda v: isinstance(v, dict),
    'array': lambda v: isinstance(v, list),
    'string': lambda v: isinstance(v, str),
    'boolean': lambda v: isinstance(v, bool),
    'null': lambda v: v is None,
    'integer': lambda v: not isinstance(v, bool) and (isinstance(v, int) or (isinstance(v, float) and v.is_integer())),
}
PASSED_OVER = {'$schema', 'title', 'description', 'definitions', 'then'}


def same(left, right):
    return type(left) is type(right) and left == right


def accepts(schema, value, root):
    return all(WORDS[word](schema[word], value, root, schema) for word in schema if word not in PASSED_OVER)


def of_object(check):
    return lambda wanted, value, root, schema: not isinstance(value, dict) or check(wanted, value, root, schema)


def within(check, kind):
    return lambda wanted, value, root, schema: not TYPES[kind](value) or check(wanted, value)


def conditional(wanted, value, root, schema):
    return not accepts(wanted, value, root) or accepts(schema['then'], value, root)


WORDS = {
    '$ref': lambda w, v, root, s: accepts(root['definitions'][w.rsplit('/', 1)[1]], v, root),
    'type': lambda w, v, root, s: any(TYPES[name](v) for name in ([w] if isinstance(w, str) else w)),
    'const': lambda w, v, root, s: same(w, v),
    'enum': lambda w, v, root, s: any(same(one, v) for one in w),
    'oneOf': lambda w, v, root, s: sum(accepts(one, v, root) for one in w) == 1,
    'anyOf': lambda w, v, root, s: any(accepts(one, v, root) for one in w),
    'allOf': lambda w, v, root, s: all(accepts(one, v, root) for one in w),
    'not': lambda w, v, root, s: not accepts(w, v, root),
    'if': conditional,
    'required': of_object(lambda w, v, root, s: all(name in v for name in w)),
    'properties': of_object(lambda w, v, root, s: all(accepts(w[name], v[name], root) for name in w if name in v)),
    'additionalProperties': of_object(lambda w, v, root, s: all(accepts(w, v[name], root) if isinstance(w, dict) else w
                                                                for name in v if name not in s.get('properties', ()))),
    'items': lambda w, v, root, s: not isinstance(v, list) or all(accepts(w, one, root) for one in v),
    'minLength': within(lambda w, v: len(v) >= w, 'string'),
    'maxLength': within(lambda w, v: len(v) <= w, 'string'),
    'minimum': within(lambda w, v: v >= w, 'integer'),
    'maximum': within(lambda w, v: v <= w, 'integer'),
}
