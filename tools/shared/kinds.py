"""The kinds of fault in words, and likely causes where a line shows none of its own."""

WORDS = {
    1: 'the line is too long',
    2: 'too many lines',
    3: 'the input is too large',
    4: 'the line isn\'t JSON',
    5: 'the first line isn\'t a header',
    6: 'the line isn\'t an operation of a script',
    7: 'there is no such worker',
    8: 'there is no input',
    9: 'the journal isn\'t one',
    11: 'a name that is this command\'s own is used',
    12: 'nothing can be dumped after this entry',
}

HINTS = {
    1: ['a first push in one response: split it into several responses, docs/RECORDING.md says how',
        'the whole script in one line: give each event a line of its own'],
    2: ['a recording of many days: cut it at a disconnect, and replay the parts apart'],
    3: ['a recording of many days: cut it at a disconnect, and replay the parts apart'],
    4: [],
    5: ['the header is {"workers":N}, and may have "auto" and "node"'],
    6: [],
    7: ['raise "workers" in line 1, or use a number below it'],
    8: ['the file is empty, or the command before the pipe wrote nothing'],
    9: ['write the journal after its script as it is: cat SCRIPT JOURNAL'],
    11: ['give the endpoints another name'],
    12: ['a batch of a worker is entered as a whole: dump after the settle that ends it'],
}
