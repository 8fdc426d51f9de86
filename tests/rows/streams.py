"""Rows of files, the main input and the standard output."""
from lines import TIMES, row

# Reads a record of a file; and prints it between brackets, or what getline answers.
READ = 'function read(f, rs,  x, c) { RS = rs; c = (getline x < f); print (c > 0 ? "[" x "]" : c) }'


def reading():
    yield row("records: paragraphs of a file, closed and read again", READ + r'BEGIN { while (i++ < 4) read("p", ""); print close("p"), close("p"); read("p", "\n") }', "", "f:p=\n\na\nb\n\n\nc\n")
    yield row("records: lines of a file, an empty one and one without an end", READ + r'BEGIN { while (i++ < 4) read("l", "\n"); print close("l") }', "", "f:l=one\n\ntwo")
    yield row("records: only the first byte of RS counts", READ + r'BEGIN { read("s", ";x"); read("s", ";"); read("s", ";") }', "", "f:s=a;b;")
    yield row("records: a file whose end fails, closed and read again", READ + r'BEGIN { while (i++ < 3) read("e", "\n"); read("e", ""); print close("e"); read("e", "\n") }', "", "g:e=a\nb")
    yield row("getline: of a file that is not there, and of one that does not open", READ + r'BEGIN { read("absent", "\n"); read("shut", "\n"); print close("absent"), close("shut") }', "", "n:shut")
    yield row("records: newlines alone are no paragraph", READ + r'BEGIN { read("n", ""); read("n", "\n") }', "", "f:n=\n\n\n")
    yield row("records: paragraphs after a line", READ + r'BEGIN { read("q", "\n"); read("q", ""); read("q", "") }', "", "f:q=\n\na")
    yield row("records: another RS in mid-file", READ + r'BEGIN { read("w", "\n"); while (i++ < 3) read("w", ";") }', "", "f:w=a\nb;c")
    yield row("records: a paragraph, and then a failed read", READ + r'BEGIN { read("h", ""); read("h", ""); read("h", "\n") }', "", "g:h=\n\na\n\nb")
    yield row("records: no paragraph before a failed read", READ + r'BEGIN { read("g", ""); print close("g"); read("g", "\n"); read("g", "\n") }', "", "g:g=a\n")
    yield row("records: separators 0 and 255", READ + r'BEGIN { read("f", "\000"); read("f", "\000"); while (i++ < 3) read("f", "\377") }', "", "f:f=a\000b\nc\000\377d\377")


def writing():
    yield row(
        "output: a file written, closed, read and appended to",
        READ + r"""
BEGIN { printf "a\n" > "f"; printf "b\n" > "f"; print close("f"), close("f"); while (i++ < 3) read("f", "\n"); printf "c\n" >> "f"
  read("f", "\n"); print close("f"); read("f", "\n"); print close("f") }""",
        "",
        "l:f",
    )
    yield row("output: appended, emptied and empty files", 'BEGIN { printf "d" >> "f"; printf "e" > "f"; printf "" > "g"; printf "x" >> "h" }', "", "f:f=a\n", "f:g=old", "l:f", "l:g", "l:h")
    yield row("output: > empties a file once", 'BEGIN { printf "d" >> "f"; print close("f"); printf "g" > "f"; printf "h" >> "f"; print close("f") }', "", "f:f=a\n", "l:f")
    for call in ('printf "x" > "d"', 'printf "" > "d"', 'printf "x" >> "d"'):
        yield row(f"output: OpenOutput, {call}", f'BEGIN {{ print 1; {call}; print "no" }}', "", "n:d")
    yield row("output: room for a part of a text", 'BEGIN { printf "ab"; printf "cd"; print "no" }', "", "r:3")
    yield row("output: an empty text where there is no room", 'BEGIN { printf "abc"; printf ""; printf "" > "f"; printf "x"; print "no" }', "", "r:3", "l:f")


def main_input():
    operands = ["o:v=1", "o:mf", "o:", "o:v=a", "o:mg", "o:mh", "o:2x=1", "o:-", "f:mf=p\n", "f:mg=q\n"]
    yield row("operands: getline over assignments, files, one that is not there and -", 'BEGIN { while (i++ < 9) { c = getline; print c, "[" FILENAME "]", FNR, NR, v, $0 } }', "s\n", *operands)
    yield row("operands: the main loop over assignments, files and one that is not there", '{ print FILENAME, FNR, NR, v, $0 }', "s\n", *operands)
    yield row("operands: getline over a file whose end fails", 'BEGIN { while (i++ < 5) { c = (getline x); print c, x, NR } }', "", "o:mf", "o:mg", "g:mf=a\nb", "f:mg=c\n")
    yield row("operands: the main loop over a file whose end fails", '{ print FILENAME, $0 } END { print "no" }', "", "o:mf", "o:mg", "g:mf=a\nb", "f:mg=c\n")
    yield row("operands: getline over a standard input whose end fails", 'BEGIN { while (i++ < 4) { c = (getline x); print c, x, NR } }', "a\nb", "x:")
    yield row("records: the last one without its separator", 'BEGIN { RS = ";" } { print } END { print NR, getline }', "a;b")
    yield row("records: newlines around paragraphs", 'BEGIN { RS = "" } { print "[" $0 "]" } END { print NR, getline }', "\n\n\na\nb\n\n\n\nc\n")
    yield row("records: lines after a paragraph", 'BEGIN { RS = "" } { print "[" $0 "]"; RS = "\\n" }', "\na\nb\n\n\nc\n\nd\n")
    yield row("records: another RS in the middle of the main input", 'NR == 1 { RS = ";" } { print FILENAME "[" $0 "]" }', "", "o:f", "o:g", "f:f=a\nb;c", "f:g=d\ne;")


def many():
    """At most 256 streams are open."""
    opened = 'for (i = 0; i < 256; i++) print i > ("f" i)'
    again = 'print "x" > "f0"; print close("f7"), (getline y < "m"), y; print "no" > "f256"'
    yield row("output: 256 open files, one closed, and one more", f"BEGIN {{ {opened}; {again} }}", "", "f:m=p\n", "l:f0", "l:f255", "l:f256")
    yield row("getline: of one file more than 256", f'BEGIN {{ {opened}; print 1; print (getline y < "m") }}', "", "f:m=p\n")
    yield row("output: the main input is not counted among 256 open files", f'NR == 1 {{ {opened} }} {{ print }} END {{ print getline }}', "", "o:m", "o:n", "f:m=p\n", "f:n=q\n")
    halves = 'for (i = 0; i < 128; i++) { print i > ("f" i); close("f" i); print (getline y < ("f" i)) y > ("g" i) }'
    yield row("output: 128 files that are read and 128 that are written", f'BEGIN {{ {halves}; print y; print (getline y < "f0"); print "no" > "f0" }}', "", "l:f0", "l:g127")


def failing_calls():
    """A world of which one call fails; a record takes a read for each 65,536 bytes."""
    steps = r'BEGIN { read("in", "\n"); read("in", "\n"); printf "x" > "out"; printf "y" > "out"; read("in", "\n") }'
    for call in range(8):
        yield row(f"failing files: reading and writing by turns, call {call}", READ + steps, "", "f:in=a\nb", "l:out", f"c:{call}")
    # the last read of a record fails, and then the writing of the answer: no read is between
    for length, reads in ((0, 1), (65535, 1), (65536, 2), (200000, 4)):
        script = f'\nBEGIN {{ print times("x", {length}) > "f"; close("f"); c = (getline x < "f"); print c, length(x) }}'
        for call in (reads + 3, reads + 4):
            yield row(f"failing files: a record of {length:,} bytes from a file, call {call}", TIMES + script, "", f"c:{call}")
        for call in (reads, reads + 1):
            yield row(f"failing files: a record of {length:,} bytes from the standard input, call {call}", "BEGIN { c = getline; print c, length($0) }", "", f"i:{length}=x", "i:1=\n", f"c:{call}")


def rows():
    for part in (reading, writing, main_input, many, failing_calls):
        yield from part()
