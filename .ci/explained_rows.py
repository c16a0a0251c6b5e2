"""Faulty texts, and what `workbench explain` has to write of them, by the rules of docs/FORMATS.md."""
# What the transcripts below are read over.
WORLD = """workbench 1
user ann
user bob
premise level
premise levels of ann
premise mine of bob
set color red green blue
cell height interval
cell weight interval
cell cat interval
cell cut interval
cell paint color
cell sure bool
cell count exact
compound apart p interval q interval
end
"""

# A line after the header, and what is written of it. `line 2` of the first line is left out.
SECOND_LINES = [
    # Names that are near: two letters exchanged, one missing, one added, another one.
    ("usre ann", "syntax", """
    usre ann
    ^^^^
    expected user, premise, set, cell or compound; perhaps `user`
"""),
    ("cell height intervl", "unknown name", """
    cell height intervl
                ^^^^^^^
    expected a kind: interval, exact, bool, sign or a set declared above; perhaps `interval`
"""),
    ("cell height exactt", "unknown name", """
    cell height exactt
                ^^^^^^
    expected a kind: interval, exact, bool, sign or a set declared above; perhaps `exact`
"""),
    ("cell height sigm", "unknown name", """
    cell height sigm
                ^^^^
    expected a kind: interval, exact, bool, sign or a set declared above; perhaps `sign`
"""),
    # Two changes are near in a word of six bytes, and not in one of five; three never are.
    ("cell height exacttt", "unknown name", """
    cell height exacttt
                ^^^^^^^
    expected a kind: interval, exact, bool, sign or a set declared above; perhaps `exact`
"""),
    ("cell height exxca", "unknown name", """
    cell height exxca
                ^^^^^
    expected a kind: interval, exact, bool, sign or a set declared above
"""),
    ("cell height intervallic", "unknown name", """
    cell height intervallic
                ^^^^^^^^^^^
    expected a kind: interval, exact, bool, sign or a set declared above
"""),
    # Nothing is near: in small letters alone are words the same.
    ("cell height INTERVAL", "unknown name", """
    cell height INTERVAL
                ^^^^^^^^
    expected a kind: interval, exact, bool, sign or a set declared above
"""),
    # Words that are missing.
    ("cell height", "syntax", """
    cell height
                ^
    expected a kind: interval, exact, bool, sign or a set declared above
"""),
    ("cell  height \t", "syntax", """
    cell  height\x20\x20
                 ^
    expected a kind: interval, exact, bool, sign or a set declared above
"""),
    ("user", "syntax", """
    user
         ^
    expected a name: 1 to 32 bytes of a-z, 0-9 and _, the first a letter
"""),
    ("premise p of", "syntax", """
    premise p of
                 ^
    expected a declared user
"""),
    ("set", "syntax", """
    set
        ^
    expected a name: 1 to 32 bytes of a-z, 0-9 and _, the first a letter
"""),
    ("compound c p interval q", "syntax", """
    compound c p interval q
                            ^
    expected a kind: interval, exact, bool, sign or a set declared above
"""),
    ("set one m", "wrong arguments", """
    set one m
              ^
    expected at least 2 members
"""),
    ("compound c", "wrong arguments", """
    compound c
               ^
    expected a parameter and its kind
"""),
    # Words too many, and words in the place of others.
    ("user ann bob", "syntax", """
    user ann bob
             ^^^
    expected no further word
"""),
    ("cell height interval exact", "syntax", """
    cell height interval exact
                         ^^^^^
    expected no further word
"""),
    ("end", "syntax", """
    end
    ^^^
    expected user, premise, set, cell or compound
"""),
    ("workbench 1", "syntax", """
    workbench 1
    ^^^^^^^^^
    expected user, premise, set, cell or compound
"""),
    # Names that are none.
    ("user Ann", "syntax", """
    user Ann
         ^^^
    expected a name: 1 to 32 bytes of a-z, 0-9 and _, the first a letter
"""),
    ("cell under interval", "syntax", """
    cell under interval
         ^^^^^
    expected a name that is not reserved
"""),
    ("compound c p interval 9 interval", "syntax", """
    compound c p interval 9 interval
                          ^
    expected a name: 1 to 32 bytes of a-z, 0-9 and _, the first a letter
"""),
    # Blanks and other bytes.
    ("\tcell\theight\tintervl\r", "unknown name", """
     cell height intervl\x20
                 ^^^^^^^
    expected a kind: interval, exact, bool, sign or a set declared above; perhaps `interval`
"""),
    ("user caf\xc3\xa9 bob", "syntax", """
    user caf?? bob
            ^
    expected a blank or visible ASCII
"""),
    ("cell height \x00\x7f\xff interval", "syntax", """
    cell height ??? interval
                ^
    expected a blank or visible ASCII
"""),
    # Names that are taken.
    ("set bool red green", "duplicate name", """
    set bool red green
        ^^^^
    expected a new name; every declaration has this kind
"""),
    ("set color red green red", "duplicate name", """
    set color red green red
                        ^^^
    expected a new name; this line has the member already
"""),
    ("compound adder p interval", "duplicate name", """
    compound adder p interval
             ^^^^^
    expected a new name; every declaration has this procedure or compound
"""),
    ("compound c p interval p bool", "duplicate name", """
    compound c p interval p bool
                          ^
    expected a new name; this line has the parameter already
"""),
    # Lines of more than 100 bytes: the word ends at the 100th byte, and past it.
    (f"compound c {'p' * 32} interval {'q' * 32} {'k' * 14}".ljust(200, " "), "unknown name", f"""
    compound c {'p' * 32} interval {'q' * 32} {'k' * 14}
    {' ' * 86}{'^' * 14}
    expected a kind: interval, exact, bool, sign or a set declared above
"""),
    (f"compound c {'p' * 32} interval {'q' * 32} {'k' * 15} r bool", "unknown name", f"""
    {'k' * 15} r bool
    ^^^^^^^^^^^^^^^
    expected a kind: interval, exact, bool, sign or a set declared above
"""),
    (f"cell x {'k' * 200}", "unknown name", f"""
    {'k' * 100}
    {'^' * 100}
    expected a kind: interval, exact, bool, sign or a set declared above
"""),
    ("user ann".ljust(4097), "limit", f"""
    {'user ann'.ljust(100)}
    expected at most 4,096 bytes in a line
"""),
    (f"compound c {' '.join(f'p{number} bool' for number in range(9))}", "limit", """
    compound c p0 bool p1 bool p2 bool p3 bool p4 bool p5 bool p6 bool p7 bool p8 bool
                                                                               ^^
    expected at most 8 parameters
"""),
]

# Other declarations, and what is written of them.
DECLARATIONS = [
    ("", """
declaration line 1: syntax
    expected the header, `workbench 1` or `workbench 2`
"""),
    ("\n# workbench 1\n", """
declaration line 3: syntax
    expected the header, `workbench 1` or `workbench 2`
"""),
    ("\n" * 1_048_577, """
declaration line 0: limit
    expected at most 1,048,576 bytes in all
"""),
    # Of a text without a right header nothing more is explained.
    ("\nworkbench 3\nusr ann\ncell x y\n", """
declaration line 2: syntax
    workbench 3
              ^
    expected the header, `workbench 1` or `workbench 2`
"""),
    ("user ann\nworkbench 1\n", """
declaration line 1: syntax
    user ann
    ^^^^
    expected the header, `workbench 1` or `workbench 2`
"""),
    (f"{'#' * 4097}\nworkbench 1\nusre ann\n", f"""
declaration line 1: limit
    {'#' * 100}
    expected at most 4,096 bytes in a line

declaration line 3: syntax
    usre ann
    ^^^^
    expected user, premise, set, cell or compound; perhaps `user`
"""),
    # What has the name.
    ("workbench 1\nuser ann\ncell height interval\nuser bob\ncell height exact\n", """
declaration line 5: duplicate name
    cell height exact
         ^^^^^^
    expected a new name; line 3 declares this cell
"""),
    ("workbench 1\npremise a\n\npremise a\nuser a\nuser a", """
declaration line 4: duplicate name
    premise a
            ^
    expected a new name; line 2 declares this premise

declaration line 6: duplicate name
    user a
         ^
    expected a new name; line 5 declares this user
"""),
    # Near names of two users: the same number of changes, fewer, and none that is near.
    ("workbench 1\nuser cat\nuser cut\npremise p of cet\npremise q of cuts\npremise r of dog", """
declaration line 4: unknown name
    premise p of cet
                 ^^^
    expected a declared user; perhaps `cat`

declaration line 5: unknown name
    premise q of cuts
                 ^^^^
    expected a declared user; perhaps `cut`

declaration line 6: unknown name
    premise r of dog
                 ^^^
    expected a declared user
"""),
    # A faulty line declares nothing, and what names it is faulty too.
    ("workbench 1\nuser ann bob\npremise p of ann\ncell x interval\ncell x interval\ncell y interval\n", """
declaration line 2: syntax
    user ann bob
             ^^^
    expected no further word

declaration line 3: unknown name
    premise p of ann
                 ^^^
    expected a declared user

declaration line 5: duplicate name
    cell x interval
         ^
    expected a new name; line 4 declares this cell
"""),
    ("workbench 1\ncell x intervl\ncell x interval\ncell x interval", """
declaration line 2: unknown name
    cell x intervl
           ^^^^^^^
    expected a kind: interval, exact, bool, sign or a set declared above; perhaps `interval`

declaration line 4: duplicate name
    cell x interval
         ^
    expected a new name; line 3 declares this cell
"""),
    # Lines of compounds, and after a faulty `compound` line its `end`.
    ("workbench 1\ncompound c p interval q bool\naddr p p p\nadder p p r\nadder p p q\ncopy p\nlocal d\nend\ncompound d p interval\nc p\nend\n", """
declaration line 3: unknown name
    addr p p p
    ^^^^
    expected a procedure, a compound that is built in or ended above, local or end; perhaps `adder`

declaration line 4: unknown name
    adder p p r
              ^
    expected a parameter or a local cell of the compound; perhaps `p`

declaration line 5: wrong arguments
    adder p p q
              ^
    expected a cell of the kind `interval`

declaration line 6: wrong arguments
    copy p
           ^
    expected a cell of the kind `interval`

declaration line 7: syntax
    local d
            ^
    expected a kind: interval, exact, bool, sign or a set declared above

declaration line 10: wrong arguments
    c p
        ^
    expected a cell of the kind `bool`
"""),
    ("workbench 1\ncompound c p intervl\ncopy p p\n end\t\nuser\n", """
declaration line 2: unknown name
    compound c p intervl
                 ^^^^^^^
    expected a kind: interval, exact, bool, sign or a set declared above; perhaps `interval`

declaration line 5: syntax
    user
         ^
    expected a name: 1 to 32 bytes of a-z, 0-9 and _, the first a letter
"""),
    ("workbench 1\ncompound c p\ncopy p p\nuser 9", """
declaration line 2: syntax
    compound c p
                 ^
    expected a kind: interval, exact, bool, sign or a set declared above
"""),
    ("workbench 1\ncompound c p bool\ncopy p p\nend x\n", """
declaration line 4: syntax
    end x
        ^
    expected no further word

declaration line 5: missing end
    expected `end` after the lines of the compound
"""),
    # More than may be declared.
    ("workbench 1\n" + "".join(f"user u{number}\n" for number in range(65)), """
declaration line 66: limit
    user u64
         ^^^
    expected at most 64 users
"""),
    ("workbench 1\n" + "".join(f"premise p{number}\n" for number in range(65)), """
declaration line 66: limit
    premise p64
            ^^^
    expected at most 64 premises, or 512 after `workbench 2`
"""),
    ("workbench 1\nset s" + "".join(f" m{number}" for number in range(65)), """
declaration line 2: limit
    m64
    ^^^
    expected at most 64 members, or 128 after `workbench 2`
"""),
    ("workbench 1\ncompound c p bool q bool\n" + "copy p q\n" * 257 + "end\n", """
declaration line 259: limit
    copy p q
    ^^^^
    expected at most 256 procedures and 256 inner cells in a compound
"""),
    # 300 faulty lines, among as many good ones, blank lines and comments.
    ("workbench 1\n" + "".join(f"\n# {number}\ncell c{number} exact\ncell c{number} sign\n" for number in range(300)), "\n" + "\n".join(
        f"""declaration line {5 + 4 * number}: duplicate name
    cell c{number} sign
         {"^" * len(f"c{number}")}
    expected a new name; line {4 + 4 * number} declares this cell
""" for number in range(300))),
    # Of the lines that name a cell the first one is faulty, and the second one declares it.
    ("workbench 1\n# x\n\ncell x exct\n\ncell x exact\ncompound c p\nend\n\ncell x bool\n", """
declaration line 4: unknown name
    cell x exct
           ^^^^
    expected a kind: interval, exact, bool, sign or a set declared above; perhaps `exact`

declaration line 7: syntax
    compound c p
                 ^
    expected a kind: interval, exact, bool, sign or a set declared above

declaration line 10: duplicate name
    cell x bool
         ^
    expected a new name; line 6 declares this cell
"""),
    # A parameter and a private cell, after lines that are left out.
    ("workbench 1\nx\n\ncompound c p bool\n# q\n\ny\nlocal q bool\nlocal p bool\n\nlocal q bool\nz", """
declaration line 2: syntax
    x
    ^
    expected user, premise, set, cell or compound

declaration line 7: syntax
    y
      ^
    expected a parameter or a local cell of the compound

declaration line 9: duplicate name
    local p bool
          ^
    expected a new name; line 4 declares this parameter

declaration line 11: duplicate name
    local q bool
          ^
    expected a new name; line 8 declares this local cell

declaration line 12: syntax
    z
      ^
    expected a parameter or a local cell of the compound

declaration line 13: missing end
    expected `end` after the lines of the compound
"""),
]

# A line over the world above, and what is written of it. `line 1` of the first line is left out.
LINES = [
    ("ann tell height 1".ljust(1025), 10, f"""
    {'ann tell height 1'.ljust(100)}
    expected at most 1,024 bytes in a line
"""),
    ("ann", 1, """
    ann
        ^
    expected a command: tell, attach, believe, doubt, beliefs, ask, why, conflicts or choose
"""),
    ("ann ask \r", 1, """
    ann ask\x20\x20
            ^
    expected a declared cell
"""),
    ("ann ask height weight", 1, """
    ann ask height weight
                   ^^^^^^
    expected no further word
"""),
    ("ann tell height", 1, """
    ann tell height
                    ^
    expected information of the kind of the cell
"""),
    ("ann tell height 1 under", 1, """
    ann tell height 1 under
                            ^
    expected a declared premise
"""),
    ("ann attach copy", 1, """
    ann attach copy
                    ^
    expected a declared cell
"""),
    ("ann beliefs x", 1, """
    ann beliefs x
                ^
    expected no further word
"""),
    ("ann believe", 1, """
    ann believe
                ^
    expected a declared premise
"""),
    ("ann choose", 1, """
    ann choose
               ^
    expected names of premises with one | between each two
"""),
    ("ann choose level||levels mine", 1, """
    ann choose level||levels mine
               ^^^^^^^^^^^^^
    expected names of premises with one | between each two
"""),
    ("ann attach copy under level", 1, """
    ann attach copy under level
                    ^^^^^
    expected a declared cell
"""),
    ("ann tell\x0bheight 1", 1, """
    ann tell?height 1
            ^
    expected a blank or visible ASCII
"""),
    ("anm ask height", 2, """
    anm ask height
    ^^^
    expected a declared user; perhaps `ann`
"""),
    ("eve ask height", 2, """
    eve ask height
    ^^^
    expected a declared user
"""),
    ("ann aks height", 3, """
    ann aks height
        ^^^
    expected a command: tell, attach, believe, doubt, beliefs, ask, why, conflicts or choose; perhaps `ask`
"""),
    ("ann belive level", 3, """
    ann belive level
        ^^^^^^
    expected a command: tell, attach, believe, doubt, beliefs, ask, why, conflicts or choose; perhaps `believe`
"""),
    ("ann ask heigth", 4, """
    ann ask heigth
            ^^^^^^
    expected a declared cell; perhaps `height`
"""),
    # As near to `height` as to `weight`, to `cat` as to `cut`; and nearer to `cut`.
    ("ann why xeight", 4, """
    ann why xeight
            ^^^^^^
    expected a declared cell; perhaps `height`
"""),
    ("ann ask cot", 4, """
    ann ask cot
            ^^^
    expected a declared cell; perhaps `cat`
"""),
    ("ann ask ucts", 4, """
    ann ask ucts
            ^^^^
    expected a declared cell
"""),
    ("ann ask act", 4, """
    ann ask act
            ^^^
    expected a declared cell; perhaps `cat`
"""),
    # A name of another sort is never near.
    ("ann ask levels", 4, """
    ann ask levels
            ^^^^^^
    expected a declared cell
"""),
    ("ann attach adder height heigh weight", 4, """
    ann attach adder height heigh weight
                            ^^^^^
    expected a declared cell; perhaps `height`
"""),
    ("ann attach addder height weight cat", 6, """
    ann attach addder height weight cat
               ^^^^^^
    expected a procedure or a compound; perhaps `adder`
"""),
    ("ann attach condtional height weight", 6, """
    ann attach condtional height weight
               ^^^^^^^^^^
    expected a procedure or a compound; perhaps `conditional`
"""),
    ("ann attach apar height weight", 6, """
    ann attach apar height weight
               ^^^^
    expected a procedure or a compound; perhaps `apart`
"""),
    ("ann tell height 9..3 under level", 8, """
    ann tell height 9..3 under level
                    ^^^^
    expected information of the kind `interval`: N or LO..HI from -1000000 to 1000000, nothing or contradiction
"""),
    ("bob tell paint {red,pink}", 8, """
    bob tell paint {red,pink}
                   ^^^^^^^^^^
    expected information of the kind `color`: {A,B} of its members, nothing or contradiction
"""),
    ("ann tell count 1..2", 8, """
    ann tell count 1..2
                   ^^^^
    expected information of the kind `exact`: N from -1000000000 to 1000000000, nothing or contradiction
"""),
    ("ann attach adder height weight", 9, """
    ann attach adder height weight
                                   ^
    expected a cell of the kind `interval`
"""),
    ("ann attach copy height paint", 9, """
    ann attach copy height paint
                           ^^^^^
    expected a cell of the kind `interval`
"""),
    ("ann attach copy height weight cat", 9, """
    ann attach copy height weight cat
                                  ^^^
    expected no further cell for `copy`
"""),
    ("ann doubt level lvel", 5, """
    ann doubt level lvel
                    ^^^^
    expected a declared premise; perhaps `level`
"""),
    ("ann tell height 1 under levelss", 5, """
    ann tell height 1 under levelss
                            ^^^^^^^
    expected a declared premise; perhaps `levels`
"""),
    ("ann attach copy height weight under level nobody", 5, """
    ann attach copy height weight under level nobody
                                              ^^^^^^
    expected a declared premise
"""),
    ("ann tell height 1 under level mine", 7, """
    ann tell height 1 under level mine
                                  ^^^^
    expected a premise of `ann` or of no user
"""),
    ("ann choose level|levle mine", 5, """
    ann choose level|levle mine
                     ^^^^^
    expected a declared premise; perhaps `level`
"""),
    ("ann choose level levels|level", 9, """
    ann choose level levels|level
                            ^^^^^
    expected each premise only once in the line
"""),
    ("ann choose a b c d e f g h", 9, """
    ann choose a b c d e f g h
                           ^
    expected at most 6 groups
"""),
    ("ann choose a b|c|d|e|f", 9, """
    ann choose a b|c|d|e|f
                         ^
    expected at most 4 names in a group
"""),
    # Lines of more than 100 bytes: the word ends at the 100th byte, and past it; a word is missing.
    (f"ann believe {'level ' * 14}leve more", 5, f"""
    ann believe {'level ' * 14}leve
    {' ' * 96}^^^^
    expected a declared premise; perhaps `level`
"""),
    (f"ann believe {'level ' * 14}levle more", 5, """
    levle more
    ^^^^^
    expected a declared premise; perhaps `level`
"""),
    (f"ann{' ' * 100}ask", 1, """
   \x20
    ^
    expected a declared cell
"""),
    (f"ann{' ' * 200}tell height 1 levels", 1, """
    levels
    ^^^^^^
    expected `under` and premises, or no further word
"""),
]

# Transcripts over the world above, and what is written of them.
TRANSCRIPTS = [
    ("", """
ok
"""),
    ("ann tell height 1\n\n# eve\nann ask height\nbob tell height 2 under mine\nann choose level\n", """
ok
"""),
    # Nothing is done: what could not be found out from scratch does not matter.
    ("eve ask x\n\nann ask x y\n# ann\nann tell height 1..2\r\nbob tel height 2", """
transcript line 1: refused 2 unknown user
    eve ask x
    ^^^
    expected a declared user

transcript line 3: refused 1 syntax
    ann ask x y
              ^
    expected no further word

transcript line 6: refused 3 unknown command
    bob tel height 2
        ^^^
    expected a command: tell, attach, believe, doubt, beliefs, ask, why, conflicts or choose; perhaps `tell`
"""),
]
