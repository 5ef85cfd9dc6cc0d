#!/usr/bin/env python3
"""spnrows2004.py TEXT: the rows of 2004's dictionary, read out of the text of source document 000 (SAE J1939-74, 2004).

Prints `SPN width line` for each SPN that 000 defines with a fixed length of 1 to 32 bits, once each, rising by SPN. The line is
that of its Data Length. What is defined with another length, or none, goes to standard error.

000 defines an SPN in one form, in section 5.3: a heading `5.3.1.1 name`; then its text; then `Data Length: ..`; then
`Suspect Parameter Number: n`. Its Appendix C has no SPN: "The parameter list is blank at this time."
The copy is not clean: fields of a definition stand on one line with nothing between them (`Data Length:5 bitsResolution:1 ..`), and a
tab parts a word, whose letters then may stand twice (`Suspect Parame<tab>eter Number: 3149`). So the text is read mark by mark, wherever a mark
stands on its line. The Data Length of a whole message (which has no unit) is none of a parameter: the next heading stands before the next
Suspect Parameter Number. An SPN in a sentence, as 2848 in 5.2.3, is no mark.
"""
import re
import sys

from spnrows import fixed

MARK = re.compile(r"""
    (?P<heading> ^(?:\#+\ )?5(?:\.\d+)+\ [A-Z])
  | (?P<length> Data\ Length:[ \t]*(?P<words>[^\n]*?)[ \t]*(?=Resolution:|$))
  | (?P<number> Suspect\ Param[a-z]*[ \t]*[a-z]*\ Number:[ \t]*(?P<spn>\d+))
""", re.M | re.X)


def definitions(text):
    """(SPN, its Data Length or '', line) of each definition in the text, in the text's order."""
    length = ('', 0)        # the last Data Length since a heading, and where it stands
    for m in MARK.finditer(text):
        if m['heading']:
            length = ('', m.start())
        elif m['length']:
            length = (m['words'], m.start())
        else:
            yield int(m['spn']), length[0], text.count('\n', 0, length[1]) + 1
            length = ('', m.start())


if __name__ == '__main__':
    if len(sys.argv) != 2:
        sys.exit(__doc__)
    with open(sys.argv[1], encoding='utf-8') as paper:
        for row in fixed(definitions(paper.read())):
            print(*row)
