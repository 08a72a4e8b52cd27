"""What ick's messages mean, and what to do.

FAULTS has the faults by number: what each means, a smallest program that has it, that program's input, and what to do.
MESSAGES has the other messages: the exit status of each, what it means, and what to do.
"""

FAULTS = {
    0: ("A statement was done that ick can't read as any of its sixteen forms.",
        "DO SOMETHING\nPLEASE GIVE UP", "",
        "`ick-advice FILE` says where reading stops. A comment begins with DO NOTE or PLEASE NOTE, and ends at the "
        "next DO or PLEASE, also inside a word."),
    17: ("A mesh (#) holds 0 to 65535.",
         "DO READ OUT #70000\nPLEASE GIVE UP", "",
         "Make a larger number by mingle: #a$#b has the bits of a at the odd places, and those of b at the even ones."),
    79: ("Fewer than a fifth of the statements say PLEASE. Comments are statements too.",
         "DO GIVE UP\n" * 5, "", "`ick-advice FILE` says how many PLEASE are missing."),
    99: ("More than a third of the statements say PLEASE. Comments are statements too.",
         "PLEASE GIVE UP\nPLEASE GIVE UP\nDO GIVE UP", "", "`ick-advice FILE` says how many PLEASE are too many."),
    123: ("79 calls by NEXT are open, and there is another.",
          "(1) DO (1) NEXT", "",
          "Begin a loop with FORGET #1, so that its NEXT leaves no entry. Leave each routine by RESUME."),
    129: ("NEXT goes to a label that no statement has.",
          "DO (7) NEXT\nPLEASE GIVE UP", "",
          "For labels from 1000 to 1999 `ick-join FILE` pastes the library after the program. (n) in front of NEXT is a "
          "statement's label, and not its number."),
    139: ("ABSTAIN or REINSTATE names a label that no statement has.",
          "DO ABSTAIN FROM (8)\nPLEASE GIVE UP", "", "Label the statement, or name a gerund."),
    182: ("Two statements have the same label.",
          "(7) DO GIVE UP\n(007) PLEASE GIVE UP", "",
          "A comment that ends in (n) hands it to the next statement as its label, and so does COME FROM (n), which is "
          "C-INTERCAL's: `ick-convert --come-from FILE` rewrites it."),
    197: ("A label goes from 1 to 65535.", "(0) DO GIVE UP", "", "Take another number."),
    200: ("The number of a variable goes from 1 to 65535.", "DO .0 <- #1\nPLEASE GIVE UP", "", "Take another number."),
    240: ("An array gets a dimension of 0.", "DO ,1 <- #0\nPLEASE GIVE UP", "", "Test the size first."),
    241: ("There is no such element. The array has no dimensions yet, or another number of them, or a subscript is 0 or "
          "too large. Dimensions that make more than 65,536 elements have this fault too, and so has READ OUT or "
          "WRITE IN of a whole tail that hasn't exactly one dimension.",
          "DO ,1SUB#1 <- #1\nPLEASE GIVE UP", "",
          "Give dimensions first: DO ,1 <- #10. Subscripts begin at 1."),
    275: ("A onespot or an element of a tail gets a number above 65535.",
          "DO .1 <- #65535$#65535\nPLEASE GIVE UP", "",
          "Store it in a twospot, as :1, or select the bits that matter, as by ~#65535."),
    436: ("RETRIEVE has nothing to retrieve.", "DO RETRIEVE .1\nPLEASE GIVE UP", "",
          "STASH the same variable before, once for each RETRIEVE."),
    533: ("Mingle takes numbers up to 65535, and a line of WRITE IN goes up to 4294967295.",
          "DO :1 <- '#1$#65535'$#1\nPLEASE GIVE UP", "",
          "Operators group from the right: a$b$c is a$(b$c), whose right side is mostly too large."),
    562: ("WRITE IN finds no line left in the input.", "DO WRITE IN .1\nPLEASE GIVE UP", "",
          "Name the program as FILE, and give the input as standard input: ick run FILE <input."),
    579: ("A line of the input has a word that is no name of a digit.", "DO WRITE IN .1\nPLEASE GIVE UP", "TEN\n",
          "Write each digit by its name: ONE ZERO for 10. `ick-wimp in` does it."),
    621: ("RESUME #0 goes nowhere.", "DO RESUME #0\nPLEASE GIVE UP", "",
          "A test gives RESUME 1 or 2: '?.1$#1'~#3 is 1 for .1 = 0, and 2 for .1 = 1."),
    632: ("RESUME of more calls than are open.", "DO RESUME #1\nPLEASE GIVE UP", "",
          "A FORGET at the head of a loop also takes the entry of the routine around it, if the loop is entered by "
          "falling into it. Enter such a loop by NEXT."),
    633: ("The run went past the last statement.", "DO READ OUT #1", "", "End the program with GIVE UP."),
}

MESSAGES = {
    "LIMIT REACHED": (3, "the run made as many steps as it may, 1,000,000 if no --limit is given.",
                      "If the program can end, give a larger limit, as `ick run --limit 100000000 FILE`. Otherwise look for "
                      "a loop that doesn't end."),
    "CHOICE WANTED": (3, "a statement has a chance, as %50, and the run has no choice for it.",
                      "`ick runs FILE` lists every run. `ick run --seed 1 FILE` draws the choices. `ick run --choices 01 "
                      "FILE` gives them: 1 does the statement, and 0 passes over it."),
    "FILE NOT READ": (4, "FILE can't be opened or read.",
                      "Look at its name, its folder and its permissions. A folder can't be read either."),
    "READ FAILED": (4, "the system couldn't read standard input, or a signal interrupted the read.",
                    "Give the input as a file: ick run FILE <input. A terminal can be non-blocking: open it anew by "
                    "</dev/tty."),
    "INPUT TOO LONG": (4, "`ick runs` and `ick-outcomes` read their whole input first, and that has more than 1,048,576 "
                          "bytes.",
                       "Give less input. `ick run` takes any length."),
    "WRITE FAILED": (4, "standard output couldn't be written. What was written before is right.",
                     "Look for a full disk, or for a reader that ended, as `head` does. `ick runs --count N` lists fewer "
                     "runs."),
    "OUT OF MEMORY": (4, "the system gives no more memory. What was written before is right.",
                      "Close other programs, or raise the limit that `ulimit -v` shows. A program whose stash or output "
                      "grows in a loop takes more and more."),
    "SOURCE TOO LONG": (2, "a source has at most 1,048,576 bytes.",
                        "Leave out comments, or join lines. Look whether FILE is a program at all."),
    "CHOICES AND SEED TOGETHER": (64, "a run takes its choices from --choices or draws them by --seed.",
                                  "Leave out one of the two."),
    "BAD CURSOR": (64, "the text after --choices or --from is no list of choices.",
                   "Write the digits 0 and 1, as 0110, or groups, as 0*70,1*2. Write --from=- for the run without choices."),
    "NO SUCH RUN": (64, "no run has the choices after --from, or they are more than the limit has steps.",
                    "Take the first word of a listed line, and list with the same program, input and --limit."),
    "TOO MANY STATES": (4, "`ick-outcomes` would have to keep more states than --most allows, 1,000,000 if it isn't given.",
                        "Print at the end, and not at each choice: what was printed belongs to the state, unless --ends is "
                        "given. Or give a --limit, a smaller one, or a larger --most."),
    "TOO MUCH MEMORY": (4, "`ick-outcomes` would have to keep states of more bytes than --memory allows, 2,000,000,000 if "
                           "it isn't given.",
                        "Give a --limit or --ends, as the line says, or a larger --memory. Or print at the end: what was "
                        "printed belongs to the state."),
    "NOT SOLVED": (4, "`ick-outcomes` found all states of the program, but not how likely each outcome is.",
                   "Give a --limit, as the line says: then the runs are weighed that end within it."),
    "LISTING TOO LONG": (4, "a listing for `ick-outcomes --asked` has at most 1,073,741,824 bytes.",
                         "Give it a part of the listing. Each line is explained by itself."),
    "STATES WITH LIMIT, TOTAL OR ASKED": (64, "`ick-outcomes --states` prints the states of all runs, and nothing else.",
                                          "Leave out --states, or --limit, --total and --asked."),
    "MEMORY WITH LIMIT": (64, "--memory bounds the search of `ick-outcomes` without a limit.",
                          "Leave out --memory or --limit."),
    "ASKED WITH EXACT, TOTAL OR ENDS": (64, "`ick-outcomes --asked` prints no outcomes.",
                                        "Leave out --asked, or --exact, --total and --ends."),
    "LINE N IS NOT OF THIS PROGRAM": (64, "a line of the listing for `ick-outcomes --asked` is no run of this program with "
                                          "this input and this limit.",
                                      "Give the program, the input and the --limit with which the listing was made."),
    "WORDS NOT READ": (64, "an argument isn't UTF-8 text.", "Rename the file."),
}
