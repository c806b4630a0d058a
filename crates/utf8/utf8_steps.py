#!/usr/bin/env python3
# Writes the step table of the UTF-8 check from RFC 3629's grammar. By hand, from the repository's folder:
#
#     crates/utf8/utf8_steps.py > crates/utf8/src/steps.rt
#
# No proof relies on it: the rule is computed over the table in the source (crates/utf8/proofs/by_table).

TAIL = (0x80, 0xBF)

# RFC 3629, section 4: an alternative of UTF8-char a line, the range of each of its bytes.
ALTERNATIVES = [
    [(0x00, 0x7F)],
    [(0xC2, 0xDF), TAIL],
    [(0xE0, 0xE0), (0xA0, 0xBF), TAIL],
    [(0xE1, 0xEC), TAIL, TAIL],
    [(0xED, 0xED), (0x80, 0x9F), TAIL],
    [(0xEE, 0xEF), TAIL, TAIL],
    [(0xF0, 0xF0), (0x90, 0xBF), TAIL, TAIL],
    [(0xF1, 0xF3), TAIL, TAIL, TAIL],
    [(0xF4, 0xF4), (0x80, 0x8F), TAIL, TAIL],
]


# A state is the list of what is still expected, None where nothing will do. The state after the byte x:
def after(state, x):
    if state is None:
        return None
    for first, *rest in [state] if state else ALTERNATIVES:
        if first[0] <= x <= first[1]:
            return rest
    return None


# The states that the grammar leads to, in its order. What goes on from two of them differs, so none is too many.
def states():
    found = [[]]
    for state in found:
        for x in range(256):
            if after(state, x) not in [None, *found]:
                found.append(after(state, x))
    return [*found, None]


# In words, as "a byte from A0 to BF, then a tail".
def words(state):
    tails = ["nothing", "a tail", "two tails", "three tails"]
    if state is None:
        return "nothing will do"
    if not state or state[0] == TAIL:
        return tails[len(state)]
    return "a byte from %02X to %02X, then %s" % (*state[0], tails[len(state) - 1])


def main():
    rows = states()
    print("// The step table of the UTF-8 check, as utf8_steps.py writes it. A state is a row, told by what is still expected. Sixteen lines of sixteen")
    print("// digits are its bytes from 00 to FF; a digit is the row of the next state.")
    print("pub(crate) const STEPS: [u64; %d] = [" % (16 * len(rows)))
    for number, state in enumerate(rows):
        print("    // %d: %s" % (number, words(state)))
        digits = ["%x" % rows.index(after(state, x)) for x in range(256)]
        for line in range(0, 256, 16):
            print("    0x%s," % "".join(digits[line : line + 16]))
    print("];")


if __name__ == "__main__":
    main()
