#!/usr/bin/env python3
"""Writes cases/refusals/: small case files at the limits of the format, each with the line that `why` prints for it.

    make_refusals.py            writes the files, then compares each expected line with the evaluator's
    make_refusals.py --check    compares only: the files as they stand, and the evaluator

Every expected line below is written by hand from the rules in docs/, beside its input. A difference from the evaluator
is a mistake in one of the two; the rules decide in which. The exit status is 1 if there is any difference.
"""

import os
import sys

sys.dont_write_bytecode = True
import evaluator

FOLDER = os.path.join(os.path.dirname(os.path.abspath(__file__)), "..", "cases", "refusals")

# The plain case that most files change in one line. It has four signals: READ 0, JUMP 1, TEMP 2, OPEN 3.
PLAIN = {
    1: "case=1",
    2: "signals=4",
    3: "signal=READ,bool,-",
    4: "signal=JUMP,bool,-",
    5: "signal=TEMP,num,-",
    6: "signal=OPEN,or,READ,JUMP",
    7: "steps=2",
    8: "loop=2",
    9: "row=0,0,20,0",
    10: "row=0,1,25,1",
    11: "prop=G (OPEN -> READ)",
}

ALL = []


def add(name, data, expected):
    """One file of the corpus."""
    if isinstance(data, str):
        data = data.encode("latin-1")
    if any(name == other for other, _, _ in ALL):
        raise ValueError(f"two files are named {name}")
    ALL.append((name, data, expected + "\n"))


def text(lines):
    return "".join(line + "\n" for line in lines)


def plain(**changes):
    """The plain case with other lines: line_3="..." stands for line 3; a line set to None is left out."""
    lines = dict(PLAIN)
    for key, value in changes.items():
        lines[int(key.removeprefix("line_"))] = value
    return text(lines[number] for number in sorted(lines) if lines[number] is not None)


def prop(formula):
    """The plain case with another property, on line 11. Step 1 has READ 0, JUMP 0, TEMP 20, OPEN 0; step 2 has 0, 1, 25, 1."""
    return plain(line_11="prop=" + formula)


def whole(signals, rows, formula, loop=None):
    """A file of its own: signal lines without key, rows as text; the loop step is the last one unless given."""
    head = ["case=1", f"signals={len(signals)}"] + ["signal=" + signal for signal in signals]
    steps = [f"steps={len(rows)}", f"loop={loop or len(rows)}"]
    return text(head + steps + ["row=" + row for row in rows] + ["prop=" + formula])


def bools(values, formula, loop=None):
    """AA, BB, CC as bool sources; a row for each step."""
    return whole(["AA,bool,-", "BB,bool,-", "CC,bool,-"], values, formula, loop)


# ---------------------------------------------------------------------------------------------------------------------
# Lines, their ends and their keys

add("plain", plain(), "verdict=fails")
add("line_empty_file", "", "refused=2,1")
add("line_one_newline", "\n", "refused=2,1")
add("line_first_without_newline", "case=1", "refused=2,1")
add("line_first_alone", "case=1\n", "refused=2,2")
add("line_second_without_newline", "case=1\nsignals=4", "refused=2,2")
add("line_cut_after_signal_1", text(PLAIN[number] for number in range(1, 5)), "refused=2,5")
add("line_cut_inside_signal_2", text(PLAIN[number] for number in range(1, 5)) + "signal=TE", "refused=2,5")
add("line_cut_before_property", text(PLAIN[number] for number in range(1, 11)), "refused=2,11")
add("line_last_newline_missing", plain()[:-1], "refused=2,11")
add("line_last_newline_missing_bad_property", prop("G (OPEN ->")[:-1], "refused=2,11")
add("line_last_newline_missing_long_property", prop("READ" + " " * 509)[:-1], "refused=2,11")
add("line_key_other_word", plain(line_1="cases=1"), "refused=2,1")
add("line_key_without_equals", plain(line_2="signals"), "refused=2,2")
add("line_key_space_before_equals", plain(line_2="signals =4"), "refused=2,2")
add("line_key_space_before", plain(line_7=" steps=2"), "refused=2,7")
add("line_key_upper_case", plain(line_8="LOOP=2"), "refused=2,8")
add("line_key_with_nul", plain(line_3="sig\0nal=READ,bool,-"), "refused=2,3")
add("line_key_bad_and_value_bad", plain(line_7="step=99"), "refused=2,7")
add("line_keys_swapped", plain(line_7="loop=2", line_8="steps=2"), "refused=2,7")
add("line_empty_inside", plain(line_6=PLAIN[6] + "\n"), "refused=2,7")
add("line_comment_inside", plain(line_6=PLAIN[6] + "\n# door"), "refused=2,7")
add("line_byte_order_mark", b"\xef\xbb\xbf" + plain().encode(), "refused=2,1")
add("line_crlf_everywhere", plain().replace("\n", "\r\n"), "refused=3,1")
add("line_cr_alone_everywhere", plain().replace("\n", "\r"), "refused=2,1")
add("line_crlf_at_signal", plain(line_4=PLAIN[4] + "\r"), "refused=3,4")
add("line_crlf_at_row", plain(line_10=PLAIN[10] + "\r"), "refused=3,10")
add("line_crlf_at_property", plain(line_11=PLAIN[11] + "\r"), "refused=4,11")
add("line_left_over_empty", plain() + "\n", "refused=2,12")
add("line_left_over_word", plain() + "note=1\n", "refused=2,12")
add("line_left_over_unended", plain() + "x", "refused=2,12")
add("line_left_over_nul", plain() + "\0", "refused=2,12")
add("line_left_over_second_property", plain() + PLAIN[11] + "\n", "refused=2,12")
add("line_left_over_after_bad_property", prop("READ &") + "note=1\n", "refused=4,11")
add("line_left_over_and_unknown_name", prop("READY") + "\n", "refused=2,12")
add("line_row_missing", plain(line_10=None), "refused=2,10")
add("line_row_left_over", plain(line_10=PLAIN[10] + "\n" + PLAIN[10]), "refused=2,11")
add("line_one_signal_too_few", plain(line_4=None), "refused=2,6")
add("line_one_signal_too_many", plain(line_2="signals=3"), "refused=2,6")

# ---------------------------------------------------------------------------------------------------------------------
# The size of the file


def large(length):
    """A lawful case of a given length: num sources, `max` blocks over them, all at −30,000; spaces behind the property."""
    names = [f"SIGNAL______{number:04}" for number in range(128)]
    signals = [name + ",num,-" for name in names[:22]]
    signals += [name + ",max," + ",".join(names[number - 8:number]) for number, name in enumerate(names)][22:]
    data = whole(signals, [",".join(["-30000"] * 128)] * 16, f"G {names[127]} = -30000")
    return data[:-1] + " " * (length - len(data)) + "\n"


add("size_32768_bytes", large(32768), "verdict=holds")
add("size_32769_bytes", large(32769), "refused=1,0")
add("size_32768_bytes_of_x", "x" * 32768, "refused=2,1")
add("size_32769_bytes_of_x", "x" * 32769, "refused=1,0")
add("size_32769_bytes_of_newlines", "\n" * 32769, "refused=1,0")
add("size_32768_bytes_unended", large(32768)[:-1] + " ", "refused=2,149")

# ---------------------------------------------------------------------------------------------------------------------
# case=, signals=, steps=, loop=

add("case_2", plain(line_1="case=2"), "refused=3,1")
add("case_empty", plain(line_1="case="), "refused=3,1")
add("case_01", plain(line_1="case=01"), "refused=3,1")
add("case_space_before", plain(line_1="case= 1"), "refused=3,1")
add("case_space_behind", plain(line_1="case=1 "), "refused=3,1")
add("case_twice_equals", plain(line_1="case==1"), "refused=3,1")

add("signals_0", plain(line_2="signals=0"), "refused=3,2")
add("signals_1", whole(["AA,bool,-"], ["1"], "AA"), "verdict=holds")
add("signals_leading_zero", plain(line_2="signals=04"), "refused=3,2")
add("signals_plus", plain(line_2="signals=+4"), "refused=3,2")
add("signals_minus", plain(line_2="signals=-4"), "refused=3,2")
add("signals_space", plain(line_2="signals= 4"), "refused=3,2")
add("signals_empty", plain(line_2="signals="), "refused=3,2")
add("signals_word", plain(line_2="signals=four"), "refused=3,2")
add("signals_two_numbers", plain(line_2="signals=4,4"), "refused=3,2")
add("signals_twenty_digits", plain(line_2="signals=18446744073709551620"), "refused=3,2")
add("signals_128", whole([f"S{number:03},bool,-" for number in range(128)], [",".join("1" * 128)], "S000 & S127"),
    "verdict=holds")
add("signals_129", whole([f"S{number:03},bool,-" for number in range(129)], [",".join("1" * 129)], "S000 & S127"),
    "refused=3,2")

add("steps_0", plain(line_7="steps=0"), "refused=3,7")
add("steps_1", bools(["1,0,0"], "G AA"), "verdict=holds")
add("steps_16", bools(["1,0,0"] * 15 + ["0,0,0"], "G AA"), "verdict=fails")
add("steps_17", bools(["1,0,0"] * 17, "G AA", 16), "refused=3,6")
add("steps_leading_zero", plain(line_7="steps=02"), "refused=3,7")
add("steps_minus_zero", plain(line_7="steps=-0"), "refused=3,7")
add("steps_space_behind", plain(line_7="steps=2 "), "refused=3,7")
add("steps_empty", plain(line_7="steps="), "refused=3,7")

add("loop_0", plain(line_8="loop=0"), "refused=3,8")
add("loop_1", plain(line_8="loop=1"), "verdict=fails")
add("loop_16", bools(["0,0,0"] * 15 + ["1,0,0"], "F G AA", 16), "verdict=holds")
add("loop_17", bools(["1,0,0"] * 16, "G AA", 17), "refused=3,7")
add("loop_leading_zero", plain(line_8="loop=02"), "refused=3,8")
add("loop_minus", plain(line_8="loop=-1"), "refused=3,8")
add("loop_empty", plain(line_8="loop="), "refused=3,8")
add("loop_above_steps", plain(line_8="loop=3"), "refused=10,0")
add("loop_16_above_steps", plain(line_8="loop=16"), "refused=10,0")
add("loop_17_above_steps", plain(line_8="loop=17"), "refused=3,8")

# ---------------------------------------------------------------------------------------------------------------------
# Names


def named(name):
    """One bool source with a given name."""
    return whole([name + ",bool,-"], ["1"], name)


add("name_of_1", plain(line_3="signal=R,bool,-"), "refused=3,3")
add("name_of_1_operator_letter", plain(line_3="signal=G,bool,-"), "refused=3,3")
add("name_of_2", named("AB"), "verdict=holds")
add("name_of_16", named("ABCDEFGHIJKLMNOP"), "verdict=holds")
add("name_of_17", named("ABCDEFGHIJKLMNOPQ"), "refused=3,3")
add("name_with_digit_and_underscore", named("A9_"), "verdict=holds")
add("name_like_two_operators", named("UU"), "verdict=holds")
add("name_operator_and_digit", named("X1"), "verdict=holds")
add("name_operator_and_word", named("GREAD"), "verdict=holds")
add("name_empty", plain(line_3="signal=,bool,-"), "refused=3,3")
add("name_digit_first", plain(line_3="signal=9A,bool,-"), "refused=3,3")
add("name_underscore_first", plain(line_3="signal=_A,bool,-"), "refused=3,3")
add("name_lower_case", plain(line_3="signal=read,bool,-"), "refused=3,3")
add("name_hyphen", plain(line_3="signal=RE-AD,bool,-"), "refused=3,3")
add("name_space", plain(line_3="signal=READ ,bool,-"), "refused=3,3")
add("name_inverted", plain(line_3="signal=!READ,bool,-"), "refused=3,3")
add("name_with_nul", plain(line_3="signal=RE\0AD,bool,-"), "refused=3,3")
add("name_with_tab", plain(line_3="signal=READ,\tbool,-"), "refused=3,3")
add("name_with_byte_above_127", plain(line_3="signal=READ\xc4,bool,-"), "refused=3,3")

add("name_repeated", plain(line_4="signal=READ,bool,-"), "refused=5,4")
add("name_repeated_by_a_block", plain(line_6="signal=JUMP,or,READ,JUMP"), "refused=5,6")
add("name_repeated_twice", plain(line_4="signal=READ,bool,-", line_6="signal=READ,or,READ,READ"), "refused=5,4")
add("name_repeated_before_unknown_pin", plain(line_4="signal=READ,bool,-", line_6="signal=OPEN,or,READ,JUMPS"), "refused=5,4")
add("name_repeated_after_unknown_pin",
    whole(["AA,bool,-", "BB,pass,ZZ", "AA,bool,-"], ["0,0,0"], "AA"), "refused=5,4")
add("name_unknown_in_pin", plain(line_6="signal=OPEN,or,READ,JUMPS"), "refused=5,6")
add("name_unknown_in_inverted_pin", plain(line_6="signal=OPEN,or,READ,!JUMPS"), "refused=5,6")
add("name_unknown_prefix_of_another", plain(line_6="signal=OPEN,or,READ,JUM"), "refused=5,6")
add("name_unknown_in_property", prop("G (OPEN -> READY)"), "refused=5,11")
add("name_unknown_in_comparison", prop("TEMPS > 5"), "refused=5,11")
add("name_unknown_in_pin_and_property", plain(line_6="signal=OPEN,or,READ,JUMPS", line_11="prop=READY"), "refused=5,6")

# ---------------------------------------------------------------------------------------------------------------------
# Makes and kinds

add("make_missing", plain(line_3="signal=READ"), "refused=3,3")
add("make_without_pins", plain(line_3="signal=READ,bool"), "refused=3,3")
add("make_empty", plain(line_3="signal=READ,,-"), "refused=3,3")
add("make_upper_case", plain(line_6="signal=OPEN,OR,READ,JUMP"), "refused=3,6")
add("make_space", plain(line_6="signal=OPEN, or,READ,JUMP"), "refused=3,6")
add("make_underscore", plain(line_6="signal=OPEN,x_or,READ,JUMP"), "refused=3,6")
add("make_bool_with_pins", plain(line_6="signal=OPEN,bool,READ,JUMP"), "refused=3,6")
add("make_num_with_value", plain(line_5="signal=TEMP,num,5"), "refused=3,5")
add("make_source_pins_empty", plain(line_3="signal=READ,bool,"), "refused=3,3")
add("make_source_two_dashes", plain(line_3="signal=READ,bool,-,-"), "refused=3,3")
add("make_source_comma_behind", plain(line_3="signal=READ,bool,-,"), "refused=3,3")
add("make_word_like_bool", plain(line_3="signal=READ,boolean,-"), "refused=3,3")
add("make_word_like_bool_with_pins", plain(line_6="signal=OPEN,boolean,READ,JUMP"), "refused=5,6")

add("kind_unknown", plain(line_6="signal=OPEN,nor,READ,JUMP"), "refused=5,6")
add("kind_of_8_unknown", plain(line_6="signal=OPEN,abcdefgh,READ,JUMP"), "refused=5,6")
add("kind_of_9", plain(line_6="signal=OPEN,abcdefghi,READ,JUMP"), "refused=3,6")
add("kind_one_digit_unknown", plain(line_6="signal=OPEN,2,READ,JUMP"), "refused=5,6")
add("kind_with_digit_unknown", plain(line_6="signal=OPEN,or2,READ,JUMP"), "refused=5,6")
add("kind_unknown_and_nine_pins", plain(line_6="signal=OPEN,nor" + ",READ" * 9), "refused=5,6")
add("kind_unknown_and_name_repeated", plain(line_4="signal=READ,nor,TEMP", line_6="signal=TEMP,or,READ,READ"), "refused=5,4")

# ---------------------------------------------------------------------------------------------------------------------
# Pins

add("pins_missing", plain(line_6="signal=OPEN,or"), "refused=3,6")
add("pins_empty", plain(line_6="signal=OPEN,or,"), "refused=3,6")
add("pins_empty_between", plain(line_6="signal=OPEN,or,READ,,JUMP"), "refused=3,6")
add("pins_comma_behind", plain(line_6="signal=OPEN,or,READ,JUMP,"), "refused=3,6")
add("pins_dash", plain(line_6="signal=OPEN,or,-"), "refused=3,6")
add("pins_dash_after_name", plain(line_6="signal=OPEN,or,READ,-"), "refused=3,6")
add("pins_number", plain(line_6="signal=OPEN,or,READ,1"), "refused=3,6")
add("pins_one_letter", plain(line_6="signal=OPEN,or,READ,J"), "refused=3,6")
add("pins_name_of_17", plain(line_6="signal=OPEN,or,READ,ABCDEFGHIJKLMNOPQ"), "refused=3,6")
add("pins_name_of_16_unknown", plain(line_6="signal=OPEN,or,READ,ABCDEFGHIJKLMNOP"), "refused=5,6")
add("pins_inverted", plain(line_6="signal=OPEN,or,READ,!JUMP", line_9="row=0,0,20,1", line_10="row=0,1,25,0"), "verdict=fails")
add("pins_inverted_twice", plain(line_6="signal=OPEN,or,READ,!!JUMP"), "refused=3,6")
add("pins_inverted_with_space", plain(line_6="signal=OPEN,or,READ,! JUMP"), "refused=3,6")
add("pins_inverted_from_behind", plain(line_6="signal=OPEN,or,READ,JUMP!"), "refused=3,6")
add("pins_inversion_alone", plain(line_6="signal=OPEN,or,READ,!"), "refused=3,6")
add("pins_with_space", plain(line_6="signal=OPEN,or,READ, JUMP"), "refused=3,6")

add("pins_8", plain(line_6="signal=OPEN,or" + ",READ" * 7 + ",JUMP"), "verdict=fails")
add("pins_9", plain(line_6="signal=OPEN,or" + ",READ" * 8 + ",JUMP"), "refused=7,3")
add("pins_9_of_not", plain(line_6="signal=OPEN,not" + ",READ" * 9), "refused=7,3")
add("pins_9_and_unknown_name", plain(line_6="signal=OPEN,or" + ",READ" * 8 + ",JUMPS"), "refused=5,6")
add("pins_1024_on_one_block", plain(line_6="signal=OPEN,or" + ",READ" * 1024), "refused=7,3")
add("pins_1025_on_one_block", plain(line_6="signal=OPEN,or" + ",READ" * 1025), "refused=7,3")
add("pins_1025_last_name_unknown", plain(line_6="signal=OPEN,or" + ",READ" * 1024 + ",JUMPS"), "refused=5,6")
add("pins_1025_last_pin_bad", plain(line_6="signal=OPEN,or" + ",READ" * 1024 + ",!"), "refused=3,6")
add("pins_1025_and_later_name_repeated",
    whole(["AA,bool,-", "BB,or" + ",AA" * 1025, "AA,pass,AA"], ["0,0,0"], "AA"), "refused=5,5")
add("pins_1025_and_earlier_pin_on_itself",
    whole(["AA,bool,-", "BB,pass,BB", "CC,or" + ",AA" * 1025], ["0,0,0"], "AA"), "refused=7,1")
add("pins_4096_on_one_block", whole(["AA,bool,-", "BB,or" + ",AA" * 4096], ["0,0"], "AA"), "refused=7,1")
add("pins_4097_on_one_block", whole(["AA,bool,-", "BB,or" + ",AA" * 4097], ["0,0"], "AA"), "refused=6,0")
add("pins_4097_on_three_blocks",
    whole(["AA,bool,-", "BB,or" + ",AA" * 8, "CC,or" + ",AA" * 2000, "DD,or" + ",AA" * 2089], ["0,0,0,0"], "AA"),
    "refused=6,0")
add("pins_4096_and_a_delay",
    whole(["AA,bool,-", "BB,delay,AA,AA", "CC,or" + ",AA" * 4096], ["0,0,0"], "AA"), "refused=7,2")
add("pins_4097_and_earlier_pin_on_itself",
    whole(["AA,bool,-", "BB,pass,BB", "CC,or" + ",AA" * 4096], ["0,0,0"], "AA"), "refused=6,0")
add("pins_4097_last_name_unknown", whole(["AA,bool,-", "BB,or" + ",AA" * 4096 + ",ZZ"], ["0,0"], "AA"), "refused=5,4")
add("pins_4097_and_unknown_name_in_property", whole(["AA,bool,-", "BB,or" + ",AA" * 4097], ["0,0"], "ZZ"), "refused=5,8")

add("pins_on_itself", plain(line_6="signal=OPEN,or,READ,OPEN"), "refused=7,3")
add("pins_on_later_signal", plain(line_4="signal=JUMP,not,OPEN"), "refused=7,1")
add("pins_first_signal_on_itself", whole(["AA,pass,AA"], ["0"], "AA"), "refused=7,0")
add("pins_wrong_at_two_signals", plain(line_4="signal=JUMP,not,OPEN", line_6="signal=OPEN,or,READ,OPEN"), "refused=7,1")
add("pins_twice_on_one_signal", plain(line_6="signal=OPEN,or,JUMP,JUMP"), "verdict=fails")

# ---------------------------------------------------------------------------------------------------------------------
# Constants and delays


def constant(make, value):
    return whole([f"AA,{make},{value}", "BB,bool,-"], [f"{value},1"], "BB")


add("cbool_0", constant("cbool", "0"), "verdict=holds")
add("cbool_1", constant("cbool", "1"), "verdict=holds")
add("cbool_2", constant("cbool", "2"), "refused=8,0,T")
add("cbool_minus_1", constant("cbool", "-1"), "refused=8,0,T")
add("cbool_30000", constant("cbool", "30000"), "refused=8,0,T")
add("cbool_30001", constant("cbool", "30001"), "refused=3,3")
add("cbool_01", constant("cbool", "01"), "refused=3,3")
add("cbool_dash", constant("cbool", "-"), "refused=3,3")
add("cbool_empty", constant("cbool", ""), "refused=3,3")
add("cbool_two_values", whole(["AA,cbool,1,0"], ["1"], "AA"), "refused=3,3")
add("cbool_a_name", whole(["AA,cbool,AA"], ["1"], "AA"), "refused=3,3")
add("cbool_inverted", whole(["AA,cbool,!1"], ["0"], "AA"), "refused=3,3")
add("cnum_30000", constant("cnum", "30000"), "verdict=holds")
add("cnum_30001", constant("cnum", "30001"), "refused=3,3")
add("cnum_minus_30000", constant("cnum", "-30000"), "verdict=holds")
add("cnum_minus_30001", constant("cnum", "-30001"), "refused=3,3")
add("cnum_65536", constant("cnum", "65536"), "refused=3,3")
add("cnum_0", constant("cnum", "0"), "verdict=holds")
add("cnum_minus_0", constant("cnum", "-0"), "refused=3,3")
add("cnum_leading_zero", constant("cnum", "007"), "refused=3,3")
add("cnum_minus_leading_zero", constant("cnum", "-07"), "refused=3,3")
add("cnum_plus", constant("cnum", "+5"), "refused=3,3")
add("cnum_two_minus", constant("cnum", "--5"), "refused=3,3")
add("cnum_minus_alone", constant("cnum", "-"), "refused=3,3")
add("cnum_space", constant("cnum", " 5"), "refused=3,3")
add("cnum_point", constant("cnum", "5.0"), "refused=3,3")
add("cnum_changed_in_row", whole(["AA,cnum,5"], ["5", "6"], "AA > 0"), "refused=13,1")


def delay(pins, rows=("0,0,0", "0,0,0"), loop=None, formula="AA"):
    """AA bool source, DD a delay, NN num source."""
    return whole(["AA,bool,-", "DD,delay," + pins, "NN,num,-"], rows, formula, loop)


add("delay_lawful", delay("AA,AA", ["1,1,0", "0,1,0", "0,0,0"]), "verdict=holds")
add("delay_one_name", delay("AA"), "refused=3,4")
add("delay_three_names", delay("AA,AA,AA"), "refused=3,4")
add("delay_no_name", delay(""), "refused=3,4")
add("delay_inverted_default", delay("!AA,AA"), "refused=3,4")
add("delay_inverted_input", delay("AA,!AA"), "refused=3,4")
add("delay_dash", delay("-,AA"), "refused=3,4")
add("delay_value_as_default", delay("0,AA"), "refused=3,4")
add("delay_unknown_default", delay("ZZ,AA"), "refused=5,4")
add("delay_unknown_input", delay("AA,ZZ"), "refused=5,4")
add("delay_default_itself", delay("DD,AA"), "refused=7,1")
add("delay_default_later", delay("NN,NN"), "refused=7,1")
add("delay_input_itself", delay("AA,DD", ["1,1,0", "0,1,0"]), "verdict=holds")
add("delay_input_later", whole(["AA,bool,-", "DD,delay,AA,BB", "BB,not,AA"], ["0,0,1", "1,1,0", "1,0,0"], "X DD"), "verdict=holds")
add("delay_input_of_other_type", delay("AA,NN"), "refused=8,1,T")
add("delay_of_num_with_bool_input", whole(["NN,num,-", "DD,delay,NN,AA", "AA,bool,-"], ["0,0,0"], "AA"), "refused=8,1,T")
add("delay_of_num", whole(["NN,num,-", "DD,delay,NN,NN"], ["7,7", "-9,7", "-9,-9"], "F DD = -9"), "verdict=holds")
add("delay_wrong_at_step_1", delay("AA,AA", ["1,0,0", "0,1,0", "0,0,0"]), "refused=13,1")
add("delay_wrong_later", delay("AA,AA", ["1,1,0", "0,0,0", "0,0,0"]), "refused=13,4")
add("delay_wrong_at_loop_step", delay("AA,AA", ["1,1,0", "0,0,0"], 2), "refused=13,4")
add("delay_open_at_last_step", delay("AA,AA", ["0,0,0", "1,0,0"]), "refused=14,1")
add("delay_open_at_step_1", delay("AA,AA", ["0,0,0", "1,0,0"], 1), "refused=14,1")
add("delay_closes_at_step_1", delay("AA,AA", ["1,1,0", "1,1,0"], 1), "verdict=holds")
add("delay_closes_inside", delay("AA,AA", ["0,0,0", "1,0,0", "0,1,0"], 2), "verdict=fails")
add("delay_closes_inside_but_not_at_end", delay("AA,AA", ["0,0,0", "1,0,0", "0,1,0"], 3), "refused=14,1")
add("delay_two_open", whole(["AA,bool,-", "DD,delay,AA,AA", "EE,delay,AA,AA"], ["0,0,0", "1,0,0"], "AA"), "refused=14,1")
add("delay_second_open",
    whole(["AA,bool,-", "DD,delay,AA,DD", "EE,delay,AA,AA"], ["0,0,0", "1,0,0"], "AA"), "refused=14,2")

# ---------------------------------------------------------------------------------------------------------------------
# Rows

add("row_empty", plain(line_9="row="), "refused=3,9")
add("row_one_short", plain(line_9="row=0,0,20"), "refused=3,9")
add("row_one_long", plain(line_9="row=0,0,20,0,0"), "refused=3,9")
add("row_comma_behind", plain(line_9="row=0,0,20,0,"), "refused=3,9")
add("row_comma_before", plain(line_9="row=,0,0,20,0"), "refused=3,9")
add("row_empty_value", plain(line_9="row=0,,20,0"), "refused=3,9")
add("row_second_bad", plain(line_10="row=0,1,25"), "refused=3,10")
add("row_spaces", plain(line_9="row=0, 0,20,0"), "refused=3,9")
add("row_space_behind", plain(line_9="row=0,0,20,0 "), "refused=3,9")
add("row_tab", plain(line_9="row=0,0,\t20,0"), "refused=3,9")
add("row_nul", plain(line_9="row=0,0,2\x000,0"), "refused=3,9")
add("row_byte_255", plain(line_9="row=0,0,20\xff,0"), "refused=3,9")
add("row_30000", plain(line_9="row=0,0,30000,0"), "verdict=fails")
add("row_30001", plain(line_9="row=0,0,30001,0"), "refused=3,9")
add("row_minus_30000", plain(line_9="row=0,0,-30000,0"), "verdict=fails")
add("row_minus_30001", plain(line_9="row=0,0,-30001,0"), "refused=3,9")
add("row_65556", plain(line_9="row=0,0,65556,0"), "refused=3,9")
add("row_18446744073709551636", plain(line_9="row=0,0,18446744073709551636,0"), "refused=3,9")
add("row_minus_zero", plain(line_9="row=0,0,-0,0"), "refused=3,9")
add("row_two_zeros", plain(line_9="row=00,0,20,0"), "refused=3,9")
add("row_leading_zero", plain(line_9="row=0,0,020,0"), "refused=3,9")
add("row_six_digits_of_zero", plain(line_9="row=0,0,000020,0"), "refused=3,9")
add("row_plus", plain(line_9="row=0,0,+20,0"), "refused=3,9")
add("row_minus_alone", plain(line_9="row=0,0,-,0"), "refused=3,9")
add("row_minus_behind", plain(line_9="row=0,0,20-,0"), "refused=3,9")
add("row_letter", plain(line_9="row=0,0,2O,0"), "refused=3,9")
add("row_hexadecimal", plain(line_9="row=0,0,0x14,0"), "refused=3,9")
add("row_out_of_num_for_a_bool", plain(line_9="row=30001,0,20,0"), "refused=3,9")
add("row_2_for_a_bool_at_step_1", plain(line_9="row=2,0,20,0"), "refused=12,0")
add("row_2_for_a_bool_at_step_2", plain(line_10="row=0,2,25,1"), "refused=12,5")
add("row_minus_1_for_a_bool", plain(line_9="row=0,-1,20,0"), "refused=12,1")
add("row_2_for_a_block", plain(line_10="row=0,1,25,2"), "refused=12,7")
add("row_2_for_two_bools", plain(line_9="row=0,2,20,0", line_10="row=2,1,25,1"), "refused=12,1")
add("row_2_for_a_constant", whole(["AA,cbool,1"], ["2"], "AA"), "refused=12,0")
add("row_wrong_block_value_at_step_1", plain(line_9="row=0,0,20,1"), "refused=13,3")
add("row_wrong_block_value_at_step_2", plain(line_10="row=0,1,25,0"), "refused=13,7")
add("row_wrong_block_value_twice", plain(line_9="row=0,0,20,1", line_10="row=0,1,25,0"), "refused=13,3")
add("row_wrong_block_feeds_another",
    whole(["AA,bool,-", "BB,not,AA", "CC,not,BB"], ["0,0,1"], "AA"), "refused=13,1")

# ---------------------------------------------------------------------------------------------------------------------
# Values of the kinds


def gate(kind, inputs, output, pins=None):
    """Bool sources A0, A1, ... and one gate over them."""
    names = [f"A{number}" for number in range(len(inputs))]
    signals = [name + ",bool,-" for name in names] + [f"OUT,{kind}," + ",".join(pins or names)]
    return whole(signals, [",".join(map(str, [*inputs, output]))], "OUT")


def number(kind, inputs, output, formula="N0 > -30000"):
    """Num sources N0, N1, ... and one number block over them."""
    names = [f"N{number}" for number in range(len(inputs))]
    signals = [name + ",num,-" for name in names] + [f"OUT,{kind}," + ",".join(names)]
    return whole(signals, [",".join(map(str, [*inputs, output]))], formula)


add("value_and_all_ones", gate("and", [1] * 8, 1), "verdict=holds")
add("value_and_one_zero", gate("and", [1] * 7 + [0], 1), "refused=13,8")
add("value_or_one_one", gate("or", [0] * 7 + [1], 1), "verdict=holds")
add("value_or_all_zeros", gate("or", [0, 0], 0), "verdict=fails")
add("value_xor_three_ones", gate("xor", [1, 1, 1], 1), "verdict=holds")
add("value_xor_two_of_three", gate("xor", [1, 0, 1], 1), "refused=13,3")
add("value_xor_inverted_pins", gate("xor", [0, 0, 0], 1, ["!A0", "!A1", "!A2"]), "verdict=holds")
add("value_not", gate("not", [0], 1), "verdict=holds")
add("value_pass", gate("pass", [1], 1), "verdict=holds")
add("value_pass_inverted", gate("pass", [1], 0, ["!A0"]), "verdict=fails")
add("value_sum_stopped_above", number("sum", [30000, 1], 30000), "verdict=holds")
add("value_sum_stopped_below", number("sum", [-20000, -20000], -30000), "verdict=holds")
add("value_sum_stopped_only_at_the_end", number("sum", [30000, 30000, -30000], 30000), "verdict=holds")
add("value_sum_stopped_on_the_way", number("sum", [30000, 30000, -30000], 0), "refused=13,3")
add("value_sum_just_not_stopped", number("sum", [29999, 1], 30000), "verdict=holds")
add("value_max", number("max", [-5, -3, -4], -3), "verdict=holds")
add("value_min", number("min", [-3, -5, -4], -5), "verdict=holds")
add("value_mean_rounds_down_when_positive", number("mean", [3, 4], 3), "verdict=holds")
add("value_mean_does_not_round_up", number("mean", [3, 4], 4), "refused=13,2")
add("value_mean_rounds_up_when_negative", number("mean", [-3, -4], -3), "verdict=holds")
add("value_mean_does_not_round_down", number("mean", [-3, -4], -4), "refused=13,2")
add("value_mean_of_minus_1_and_0", number("mean", [-1, 0], 0), "verdict=holds")
add("value_mean_is_not_stopped", number("mean", [30000, 30000, 3], 20001), "verdict=holds")
add("value_ge_equal", number("ge", [7, 7], 1, "OUT"), "verdict=holds")
add("value_ge_less", number("ge", [6, 7], 0, "OUT"), "verdict=fails")
add("value_ge_order_of_pins", number("ge", [8, 7], 0, "OUT"), "refused=13,2")
add("value_eq_equal", number("eq", [-7, -7], 1, "OUT"), "verdict=holds")
add("value_eq_not_equal", number("eq", [-7, 7], 1, "OUT"), "refused=13,2")

# ---------------------------------------------------------------------------------------------------------------------
# Blocks that the library does not have, and types

add("block_not_with_2_pins", plain(line_6="signal=OPEN,not,READ,JUMP"), "refused=8,3,P")
add("block_pass_with_2_pins", plain(line_6="signal=OPEN,pass,READ,JUMP"), "refused=8,3,P")
add("block_and_with_1_pin", plain(line_6="signal=OPEN,and,READ"), "refused=8,3,P")
add("block_or_with_1_pin", plain(line_6="signal=OPEN,or,READ"), "refused=8,3,P")
add("block_xor_with_1_pin", plain(line_6="signal=OPEN,xor,READ"), "refused=8,3,P")
add("block_sum_with_1_pin", plain(line_6="signal=OPEN,sum,TEMP"), "refused=8,3,P")
add("block_mean_with_1_pin", plain(line_6="signal=OPEN,mean,TEMP"), "refused=8,3,P")
add("block_ge_with_1_pin", plain(line_6="signal=OPEN,ge,TEMP"), "refused=8,3,P")
add("block_ge_with_3_pins", plain(line_6="signal=OPEN,ge,TEMP,TEMP,TEMP"), "refused=8,3,P")
add("block_eq_with_8_pins", plain(line_6="signal=OPEN,eq" + ",TEMP" * 8), "refused=8,3,P")
add("block_missing_with_wrong_types", plain(line_6="signal=OPEN,not,TEMP,TEMP"), "refused=8,3,P")
add("block_missing_at_two_signals",
    whole(["AA,bool,-", "BB,not,AA,AA", "CC,and,AA"], ["0,0,0"], "AA"), "refused=8,1,P")
add("block_missing_after_wrong_type",
    whole(["AA,bool,-", "NN,num,-", "BB,not,NN", "CC,and,AA"], ["0,0,0,0"], "AA"), "refused=8,3,P")
add("block_missing_after_wrong_constant", whole(["AA,cbool,2", "CC,and,AA"], ["0,0"], "AA"), "refused=8,1,P")
add("type_num_pin_on_a_gate", plain(line_6="signal=OPEN,or,READ,TEMP"), "refused=8,3,T")
add("type_bool_pin_on_a_sum", plain(line_6="signal=OPEN,sum,READ,TEMP"), "refused=8,3,T")
add("type_num_pin_inverted", plain(line_6="signal=OPEN,ge,TEMP,!TEMP"), "refused=8,3,T")
add("type_output_of_ge_is_bool",
    whole(["NN,num,-", "BB,ge,NN,NN", "CC,sum,NN,BB"], ["0,1,1"], "BB"), "refused=8,2,T")
add("type_output_of_sum_is_num", whole(["NN,num,-", "BB,sum,NN,NN", "CC,not,BB"], ["0,0,1"], "CC"), "refused=8,2,T")
add("type_of_a_delay_is_its_default",
    whole(["NN,num,-", "DD,delay,NN,NN", "CC,not,DD"], ["0,0,1"], "CC"), "refused=8,2,T")
add("type_wrong_at_two_signals",
    whole(["AA,bool,-", "NN,num,-", "BB,not,NN", "CC,cbool,2"], ["0,0,0,0"], "AA"), "refused=8,2,T")
add("type_wrong_constant_before_block",
    whole(["CC,cbool,2", "NN,num,-", "BB,not,NN"], ["0,0,0"], "BB"), "refused=8,0,T")

# ---------------------------------------------------------------------------------------------------------------------
# The property: length, nodes, sentences

add("property_empty", prop(""), "refused=4,11")
add("property_one_space", prop(" "), "refused=4,11")
add("property_512_spaces", prop(" " * 512), "refused=4,11")
add("property_513_spaces", prop(" " * 513), "refused=3,11")
add("property_512_bytes", prop("OPEN" + " " * 508), "verdict=fails")
add("property_513_bytes", prop("OPEN" + " " * 509), "refused=3,11")
add("property_512_bytes_of_x", prop("x" * 512), "refused=4,11")
add("property_513_bytes_of_x", prop("x" * 513), "refused=3,11")
add("property_spaces_around", prop("  G  ( OPEN  ->  READ )  "), "verdict=fails")
add("property_no_spaces", prop("G(OPEN->READ)"), "verdict=fails")
add("property_254_brackets", prop("(" * 254 + "OPEN" + ")" * 254), "verdict=fails")
add("property_254_brackets_one_open", prop("(" * 254 + "OPEN" + ")" * 253), "refused=4,11")
add("property_512_opening_brackets", prop("(" * 512), "refused=4,11")
add("property_64_nodes_in_a_row", prop("!" * 63 + "OPEN"), "verdict=holds")
add("property_65_nodes_in_a_row", prop("!" * 64 + "OPEN"), "refused=4,11")
add("property_509_nodes_in_a_row", prop("!" * 508 + "OPEN"), "refused=4,11")
add("property_63_nodes_of_and", prop("&".join(["READ"] * 32)), "verdict=fails")
add("property_64_nodes_of_and", prop("!(" + "&".join(["READ"] * 32) + ")"), "verdict=holds")
add("property_65_nodes_of_and", prop("&".join(["READ"] * 33)), "refused=4,11")
add("property_65_nodes_of_arrow", prop("->".join(["READ"] * 33)), "refused=4,11")
add("property_64_nodes_of_until", prop("!(" + "U ".join(["READ "] * 32) + ")"), "verdict=holds")
add("property_65_nodes_unknown_name", prop("&".join(["READ"] * 32 + ["ZZZZ"])), "refused=4,11")
add("property_64_nodes_unknown_name", prop("!(" + "&".join(["READ"] * 31 + ["ZZZZ"]) + ")"), "refused=5,11")
add("property_65_nodes_wrong_atom", prop("&".join(["TEMP"] * 33)), "refused=4,11")

for label, formula in (
        ("operator_alone", "G"), ("until_alone", "U"), ("not_alone", "!"), ("sign_alone", "&"), ("brackets_alone", "()"),
        ("two_names", "READ JUMP"), ("two_names_in_brackets", "(READ)(JUMP)"), ("and_without_right", "READ &"),
        ("and_without_left", "& READ"), ("arrow_without_right", "READ ->"), ("arrow_without_left", "-> READ"),
        ("until_without_right", "READ U"), ("until_without_left", "U READ"), ("not_between", "READ ! JUMP"),
        ("next_between", "READ X JUMP"), ("two_signs", "READ & | JUMP"), ("double_and", "READ && JUMP"),
        ("double_or", "READ || JUMP"), ("bracket_open", "(READ"), ("bracket_closed", "READ)"), ("bracket_turned", ")READ("),
        ("square_brackets", "[READ]"), ("half_arrow", "READ - JUMP"), ("arrow_with_space", "READ - > JUMP"),
        ("arrow_backward", "READ <- JUMP"), ("arrow_both_ways", "READ <-> JUMP"), ("long_arrow", "READ --> JUMP"),
        ("equals_arrow", "READ => JUMP"), ("lower_case", "G (open -> READ)"), ("lower_case_operator", "g READ"),
        ("comma", "READ, JUMP"), ("quote", "\"READ\""), ("tab", "G\tREAD"), ("nul", "READ\0"), ("carriage_return_inside", "G\rREAD"),
        ("byte_above_127", "READ \xac"), ("byte_255", "\xff"), ("comparison_without_number", "TEMP >"),
        ("comparison_without_name", "> 5"), ("comparison_turned", "5 < TEMP"), ("comparison_of_signals", "TEMP < TEMP"),
        ("comparison_twice", "TEMP > 5 > 3"), ("comparison_at_least", "TEMP >= 5"), ("comparison_double_equals", "TEMP == 5"),
        ("comparison_not_equal", "TEMP != 5"), ("comparison_of_brackets", "(TEMP) > 1"),
        ("comparison_number_in_brackets", "TEMP > (1)"), ("number_alone", "1"), ("number_under_not", "!5"),
        ("number_after_arrow", "TEMP->5"), ("number_after_greater_and_arrow", "TEMP>->5"), ("number_spaced_minus", "TEMP > - 5"),
        ("number_two_minus", "TEMP>--5"), ("number_minus_name", "TEMP>-READ"), ("number_plus", "TEMP > +5"),
        ("number_two_zeros", "TEMP > 00"), ("number_minus_zero", "TEMP > -0"), ("number_leading_zero", "TEMP > 05"),
        ("number_minus_leading_zero", "TEMP > -05"), ("number_30001", "TEMP < 30001"), ("number_minus_30001", "TEMP > -30001"),
        ("number_65541", "TEMP < 65541"), ("number_twenty_digits", "TEMP < 18446744073709551636"), ("number_point", "TEMP > 5.0"),
        ("number_letter_behind", "TEMP > 5A"), ("number_underscore_behind", "TEMP > 5_"), ("number_until_behind", "TEMP>5U READ"),
        ("number_minus_behind", "TEMP > 5-"), ("number_then_minus", "TEMP=20-READ"), ("name_minus_number", "TEMP-5"),
        ("letter_alone", "A"), ("letter_alone_under_operator", "G Q"), ("letters_spaced", "R E A D"), ("underscore_alone", "_"),
        ("word_underscore_first", "_A"), ("word_digit_first", "9A"), ("word_of_17", "ABCDEFGHIJKLMNOPQ"),
        ("operators_joined", "FX READ"), ("operator_joined_to_bracket_word", "GREAD (READ)"), ("trailing_operator", "READ G"),
        ("operators_only", "G F X"), ("unbalanced_inside", "G (OPEN -> (READ)"), ("semicolon", "READ;"),
):
    add("sentence_" + label, prop(formula), "refused=4,11")

# Words that are names, and so are unknown
add("word_operator_joined_to_name", prop("GREAD"), "refused=5,11")
add("word_two_operators", prop("UU"), "refused=5,11")
add("word_operator_and_digit", prop("X1"), "refused=5,11")
add("word_names_joined_by_until", prop("READUJUMP"), "refused=5,11")
add("word_of_16", prop("ABCDEFGHIJKLMNOP"), "refused=5,11")
add("word_underscore_last", prop("READ_"), "refused=5,11")
add("word_true", prop("TRUE"), "refused=5,11")

# Sentences, and what they come to
add("number_minus_5", prop("TEMP>-5"), "verdict=holds")
add("number_30000", prop("TEMP > 30000"), "verdict=fails")
add("number_minus_30000", prop("TEMP > -30000"), "verdict=holds")
add("number_then_arrow", prop("TEMP=-5->READ"), "verdict=holds")
add("number_then_and", prop("TEMP>5&READ"), "verdict=fails")
add("number_then_until", prop("TEMP<30 U OPEN"), "verdict=holds")
add("comparison_equal", prop("TEMP = 20"), "verdict=holds")
add("comparison_less", prop("TEMP < 20"), "verdict=fails")
add("comparison_greater", prop("TEMP > 20"), "verdict=fails")
add("comparison_under_not", prop("! TEMP > 21"), "verdict=holds")
add("comparison_under_next", prop("X TEMP > 21"), "verdict=holds")
add("comparison_under_globally", prop("G TEMP > 19"), "verdict=holds")
add("comparison_under_finally", prop("F TEMP = 25"), "verdict=holds")
add("comparison_left_of_until", prop("TEMP > 30 U OPEN"), "verdict=fails")
add("comparison_in_brackets", prop("(TEMP > 1)"), "verdict=holds")

# An atom of the wrong type, with its node
add("atom_num_without_comparison", prop("TEMP"), "refused=9,0")
add("atom_bool_with_comparison", prop("READ = 1"), "refused=9,0")
add("atom_wrong_at_two_nodes", prop("OPEN -> (READ > 0 & TEMP)"), "refused=9,1")
add("atom_wrong_at_node_61", prop("!(" + "&".join(["READ"] * 31 + ["TEMP"]) + ")"), "refused=9,61")

# ---------------------------------------------------------------------------------------------------------------------
# Strength and grouping: by the node of a wrong atom, and by the verdict

add("groups_or_from_the_left", prop("READ | JUMP | TEMP"), "refused=9,3")
add("groups_and_from_the_left", prop("READ & JUMP & TEMP"), "refused=9,3")
add("groups_until_from_the_right", prop("READ U JUMP U TEMP"), "refused=9,2")
add("groups_arrow_from_the_right", prop("READ -> JUMP -> TEMP"), "refused=9,2")
add("groups_or_with_brackets", prop("READ | (JUMP | TEMP)"), "refused=9,2")
add("groups_arrow_with_brackets", prop("(READ -> JUMP) -> TEMP"), "refused=9,3")
add("groups_and_before_or", prop("READ | JUMP & TEMP"), "refused=9,2")
add("groups_and_before_or_on_the_left", prop("READ & JUMP | TEMP"), "refused=9,3")
add("groups_until_before_and", prop("READ & JUMP U TEMP"), "refused=9,2")
add("groups_or_before_arrow", prop("READ -> JUMP | TEMP"), "refused=9,2")
add("groups_not_before_until", prop("! READ U TEMP"), "refused=9,2")
add("groups_unary_in_order", prop("X F G ! TEMP"), "refused=9,0")
add("groups_numbers_of_a_tree", prop("(READ U X JUMP) -> !(OPEN & TEMP)"), "refused=9,5")

add("means_arrow_from_the_right", bools(["0,0,0"], "AA -> BB -> CC"), "verdict=holds")
add("means_arrow_bracketed_left", bools(["0,0,0"], "(AA -> BB) -> CC"), "verdict=fails")
add("means_until_from_the_right", bools(["1,0,0", "0,0,1"], "AA U BB U CC"), "verdict=holds")
add("means_until_bracketed_left", bools(["1,0,0", "0,0,1"], "(AA U BB) U CC"), "verdict=fails")
add("means_globally_before_arrow", prop("G OPEN -> READ"), "verdict=holds")
add("means_not_before_until", prop("!OPEN U READ"), "verdict=fails")
add("means_until_before_and", prop("!READ U OPEN & !JUMP"), "verdict=holds")
add("means_and_before_or_on_the_left", prop("READ & JUMP | !READ"), "verdict=holds")
add("means_and_before_or_on_the_right", prop("!READ | READ & READ"), "verdict=holds")
add("means_or_before_arrow", prop("!READ | READ -> READ"), "verdict=fails")
add("means_next_before_and", prop("X OPEN & !OPEN"), "verdict=holds")

# ---------------------------------------------------------------------------------------------------------------------
# The looping run

add("loop_next_after_last_is_loop_step", bools(["0,0,0", "1,0,0", "0,0,0"], "X X X AA", 2), "verdict=holds")
add("loop_next_after_last_stays", bools(["0,0,0", "1,0,0", "0,0,0"], "X X X AA", 3), "verdict=fails")
add("loop_finally_wraps", bools(["0,0,0", "1,0,0", "0,0,0"], "G F AA", 2), "verdict=holds")
add("loop_finally_does_not_wrap", bools(["0,0,0", "1,0,0", "0,0,0"], "G F AA", 3), "verdict=fails")
add("loop_finally_leaves_the_lead_out", bools(["1,0,0", "0,0,0", "0,0,0"], "X F AA", 2), "verdict=fails")
add("loop_globally_leaves_the_lead_out", bools(["0,0,0", "1,0,0", "1,0,0"], "X G AA", 2), "verdict=holds")
add("loop_until_wraps", bools(["0,0,0", "0,1,0", "1,0,0"], "X X (AA U BB)", 2), "verdict=holds")
add("loop_until_wraps_into_a_gap", bools(["0,0,0", "0,0,0", "0,1,0", "1,0,0"], "X X X (AA U BB)", 2), "verdict=fails")
add("loop_until_without_end", bools(["1,0,0", "1,0,0"], "AA U BB", 1), "verdict=fails")
add("loop_until_at_once", bools(["0,1,0"], "AA U BB"), "verdict=holds")

# ---------------------------------------------------------------------------------------------------------------------
# Several rules broken at once

add("order_form_before_later_key", plain(line_3="signal=R,bool,-", line_7="stops=2"), "refused=3,3")
add("order_key_before_later_form", plain(line_3="single=READ,bool,-", line_4="signal=J,bool,-"), "refused=2,3")
add("order_form_before_later_sentence", plain(line_9="row=0", line_11="prop=READ &"), "refused=3,9")
add("order_sentence_before_unknown_pin", plain(line_6="signal=OPEN,or,READ,ZZ", line_11="prop=READ &"), "refused=4,11")
add("order_unknown_before_nine_pins", plain(line_6="signal=OPEN,or" + ",READ" * 9, line_11="prop=ZZ"), "refused=5,11")
add("order_pin_before_missing_block", plain(line_4="signal=JUMP,not,READ,READ", line_6="signal=OPEN,or,READ,OPEN"), "refused=7,3")
add("order_missing_block_before_atom", plain(line_6="signal=OPEN,not,READ,JUMP", line_11="prop=TEMP"), "refused=8,3,P")
add("order_type_before_atom", plain(line_6="signal=OPEN,or,READ,TEMP", line_11="prop=TEMP"), "refused=8,3,T")
add("order_atom_before_loop", plain(line_8="loop=3", line_11="prop=TEMP"), "refused=9,0")
add("order_loop_before_value", plain(line_8="loop=3", line_9="row=2,0,20,0"), "refused=10,0")
add("order_unknown_before_loop", plain(line_8="loop=3", line_11="prop=ZZ"), "refused=5,11")
add("order_value_before_wrong_value", plain(line_9="row=0,0,20,1", line_10="row=2,1,25,1"), "refused=12,4")
add("order_wrong_value_before_loop_not_closing",
    whole(["AA,bool,-", "DD,delay,AA,AA", "BB,not,AA"], ["0,0,1", "1,0,1"], "AA"), "refused=13,5")
add("order_type_before_wrong_value", plain(line_6="signal=OPEN,or,READ,TEMP", line_9="row=2,0,20,1"), "refused=8,3,T")
add("order_everything",
    whole(["AA,bool,-", "AA,cbool,2", "BB,or" + ",CC" * 9, "CC,not,ZZ,ZZ"], ["2,2,2,2"], "AA = 1", 16), "refused=5,4")


# ---------------------------------------------------------------------------------------------------------------------


def write_all():
    os.makedirs(FOLDER, exist_ok=True)
    for entry in os.listdir(FOLDER):
        if entry.endswith((".case", ".verdict")):
            os.remove(os.path.join(FOLDER, entry))
    for name, data, expected in ALL:
        with open(os.path.join(FOLDER, name + ".case"), "wb") as file:
            file.write(data)
        with open(os.path.join(FOLDER, name + ".verdict"), "wb") as file:
            file.write(expected.encode("ascii"))


def differences():
    """What stands in the folder, and what the evaluator says, against the expected lines."""
    for name, data, expected in ALL:
        for ending, content in ((".case", data), (".verdict", expected.encode("ascii"))):
            try:
                with open(os.path.join(FOLDER, name + ending), "rb") as file:
                    same = file.read() == content
            except FileNotFoundError:
                same = False
            if not same:
                yield f"{name}{ending} is not as written here"
        found, status = evaluator.evaluate(data, True)
        if found != expected or status != (0 if expected.startswith("verdict=") else 1):
            yield f"{name}: expected {expected.strip()}, the evaluator says {found.strip()}"
    for entry in sorted(os.listdir(FOLDER)):
        if entry.endswith((".case", ".verdict")) and not any(entry.rsplit(".", 1)[0] == name for name, _, _ in ALL):
            yield f"{entry} is not written here"


def main(arguments):
    if arguments not in ([], ["--check"]):
        print("usage: make_refusals.py [--check]", file=sys.stderr)
        return 2
    if not arguments:
        write_all()
    found = list(differences())
    for line in found:
        print(line)
    print(f"{len(ALL)} files, {len(found)} differences")
    return 1 if found else 0


if __name__ == "__main__":
    sys.exit(main(sys.argv[1:]))
