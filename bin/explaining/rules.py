"""The rules by which a file is refused, and the faults that a run may meet.

Of each rule a short text, its sentence in docs/LANGUAGE.md or docs/REPORTS.md, and what may help. tests/explain
compares the sentences with the documents.
"""
from typing import NamedTuple


class Rule(NamedTuple):
    head: str
    sentence: str
    help: str


class Fault(NamedTuple):
    text: str
    name: str
    met: str


FAULTS = {
    1: Fault('null dereference', 'null-dereference', 'an arrow is followed from Null'),
    2: Fault('uninitialised dereference', 'uninitialised-dereference', 'an arrow is followed from Uninit'),
    3: Fault('dangling dereference', 'dangling-dereference', 'an arrow is followed from Dangling'),
    4: Fault('invalid free', 'invalid-free', 'Uninit is freed'),
    5: Fault('double free', 'double-free', 'Dangling is freed'),
    6: Fault('leak', 'leak', 'after a step the store has leaked'),
    7: Fault('failed assertion', 'failed-assertion', 'an assertion is false, or the program reports an error'),
    8: Fault('indeterminate test', 'indeterminate-test', 'a test looks at Uninit, Dangling or Undefined'),
}

RULES = {
    'L1': Rule(
        'no token begins here',
        'A byte with which no token begins is refusal L1',
        'A quotation must end on its line; other signs belong into comments alone.',
    ),
    'L2': Rule('the block comment is not closed', 'a block comment that is not closed is L2', 'Close it by */.'),
    'P1': Rule(
        'the address of something, or a bitwise and',
        '`&`',
        'Cells come from malloc alone: make a cell and pass its pointer, or let a function give a result.',
    ),
    'P2': Rule('an array', '`[` `]`', 'There are no arrays: use one variable for each element, or a linked list.'),
    'P3': Rule('a union', 'the word `union`', 'Give the struct a field for each member.'),
    'P4': Rule(
        'arithmetic, an order, or a dot',
        '`+` `-` `/` `%` `<` `>` `~` `^` the single bar, `?` and `.`',
        'Numbers are 0 to 15, and are copied and compared with == and != alone: where a loop counts, let it go on by '
        'while (__VERIFIER_nondet_int()); for x.f write a pointer and x->f; for c ? a : b an if.',
    ),
    'P5': Rule(
        'goto, switch, or a colon',
        '`goto` `switch` `case` `default` and `:`',
        'Write if and else in place of switch, and break, continue or return in place of goto.',
    ),
    'P6': Rule(
        'a type that is none here',
        '`char` `short` `long` `float` `double` `signed` `unsigned` `bool` `_Bool` `_Complex`',
        'Write int; its values are 0 to 15.',
    ),
    'P7': Rule('a quotation', 'a quotation', 'Leave the text out, and with it the call that prints it.'),
    'P8': Rule(
        'a preprocessor line',
        'a `#` that begins no include line',
        'Only <stdlib.h>, <assert.h>, <stddef.h> and <stdbool.h> may be included; write out what a #define stands for.',
    ),
    'P9': Rule(
        'a word that is not read',
        '`static` `volatile` `const` `register` `auto` `inline` `restrict` `typedef`',
        'Leave the word out; for a typedef write `struct NAME` wherever its name stands.',
    ),
    'P10': Rule(
        'a number that is not 0 to 15',
        'a number that is not one of 0, 1, 2 up to 15 as these are written',
        'Data are 0 to 15: let other numbers stand for each other where only their being equal matters.',
    ),
    'S1': Rule(
        'the grammar has no such token here',
        'A hopeless token is refusal S1',
        'Often a call inside a condition or an argument (give its result to a variable first), a cast other than of '
        'malloc, a missing semicolon, or a struct that is no pointer.',
    ),
    'S2': Rule(
        'nested deeper than 64 levels',
        'At most 64 levels may be open.',
        'Put an inner part into a function of its own.',
    ),
    'T1': Rule(
        'the struct is not defined', 'a struct that is not defined', 'Define it in this file: struct NAME { .. };'
    ),
    'T2': Rule(
        'the struct has no such field',
        'a field that the struct does not have',
        'Look at the definition of the struct to which the pointer before the arrow points.',
    ),
    'T3': Rule(
        'no such variable in scope',
        (
            'a name that is neither a variable in scope nor an enumerator; '
            'an enumerator as the head of an arrow or as a target'
        ),
        'Declare it before its first use, in this block or one around it; macros and global variables are not read.',
    ),
    'T4': Rule(
        'the enumeration is not defined',
        'an enumeration that is not defined',
        'Define it in this file: enum NAME { .. };',
    ),
    'T5': Rule(
        'the name is defined twice',
        'a second struct, enumeration, enumerator or function of one name, a second field of one struct, a second '
        'variable of one block, a second parameter of one function or prototype',
        'Give the second one another name.',
    ),
    'T6': Rule(
        'pointers to different structs',
        "pointers to different structs in an assignment, comparison, argument or `return`, or a cast to another "
        "struct than the target's",
        'Both sides must point to the same struct; there are no casts but that of malloc.',
    ),
    'T7': Rule('data where a pointer is wanted', 'data where a pointer is wanted', 'Use a pointer variable, or NULL.'),
    'T8': Rule(
        'a pointer where data is wanted',
        'a pointer, NULL or `malloc` where data is wanted',
        'Declare the target as struct NAME *, or compare the pointer with NULL.',
    ),
    'T9': Rule('an arrow on data', 'an arrow or `sizeof *` on data', 'Only pointers to structs have fields.'),
    'T10': Rule(
        "another struct's size",
        "the size of another struct than the target's",
        'Write sizeof(struct NAME) with the struct to which the target points.',
    ),
    'T11': Rule('outside a loop', '`break` or `continue` outside a loop', 'Write return, or an if.'),
    'T12': Rule(
        'there is no main',
        'no `main`',
        'Write int main(void) that calls what is to be verified, with what it may be given.',
    ),
    'T13': Rule(
        'a function that leads to itself',
        'a call of a function that leads by calls to the function around, or is that function',
        'There is no recursion: write a loop.',
    ),
    'T14': Rule(
        'a global variable',
        'a global variable',
        'Declare it in main and pass it, or put it into a cell that is passed.',
    ),
    'T15': Rule(
        'a call or function that is not allowed here',
        'a call, prototype or head of `main` that is not allowed, or a definition of a given function',
        'The function must be defined in this file; main is int main(void); __VERIFIER_nondet_int() stands in '
        'conditions, __VERIFIER_nondet_bool() also at the right of =.',
    ),
    'T16': Rule(
        'a return that does not fit its function',
        'a `return` with an operand in a function without a result, or without one in another function than `main` '
        'that has a result',
        'Let the return and the head of its function agree.',
    ),
    'T17': Rule(
        'another number of arguments, or no result',
        'a call with another number of arguments than its function has parameters, or of a function without a '
        'result as a right side',
        'Compare the call with the head of the function.',
    ),
    'K1': Rule(
        'the file is too long',
        'A file of more than 1,048,576 bytes is `refused K1 file`.',
        'A file has at most 1,048,576 bytes, and a file of boxes 65,536: leave out what main does not reach.',
    ),
    'K2': Rule('more than 32 structs', 'structs that are defined', 'Leave out the structs that main does not reach.'),
    'K3': Rule('more than 16 fields', 'fields of a struct', 'Leave out fields that do not matter.'),
    'K4': Rule(
        'more than 64 variables',
        'variables, with those of `for` heads, parameters of functions, and results of functions besides `main`, '
        "which are counted at the function's name",
        'Use one variable for several things, and leave out functions that main does not reach.',
    ),
    'K5': Rule('more than 16 enumerators', 'enumerators of an enumeration', 'Split the enumeration.'),
    'K6': Rule('more than 32 boxes', 'more than 32 boxes', 'Keep the boxes that fold.'),
    'K7': Rule(
        'more than 4,096 statements in a function',
        'statements and declarations in the block of a function, outer ones first, a declaration in the head of a '
        '`for` with them',
        'Split the function.',
    ),
    'K8': Rule('more than 65,535 tokens', 'tokens', 'Leave out what main does not reach.'),
    'K9': Rule(
        'main with all its calls is too long',
        'the weight of `main`: the statements and declarations of its block, and for each call in it the weight of '
        'the called function',
        'Each call counts as a copy of its function: call less often, or verify in parts.',
    ),
    'K10': Rule(
        'more than 64 functions',
        'definitions of functions, `main` with them',
        'Leave out functions that main does not reach.',
    ),
    'B1': Rule(
        'no file of boxes has this line here',
        'a line with which no file of boxes begins: one that is none of these, or not here',
        'Compare with examples/dll.box: box, root 0, its rules, root 1, its rules, end.',
    ),
    'B2': Rule(
        'a struct, field or datum that does not fit the program',
        'a struct or a field that the program does not have; a datum in the place of a pointer, or the other way; '
        'data that are not those of the struct, in their order; data at the cell of a port.',
        'Use the names of the C file. Ports have no data; inner cells have all of them, in order.',
    ),
    'B3': Rule(
        'an edge of a box that is not defined before, or a second box of this name',
        'an edge of a box that stands nowhere before this box, so '
        'also of this box itself; `@name=s1` for a box without '
        'an output, or `@name` for one with an output; a second box of one name',
        'Let inner boxes stand before those that use them.',
    ),
    'B4': Rule(
        'a cell of the box does not have each field once',
        'a tree of the box in which an inner cell does not have each pointer field of its struct exactly once, by its '
        'own slots and by the edge of a box that ends at it, or a port has a field twice',
        'Write every pointer field of inner cells, slots in the order of the fields.',
    ),
    'B5': Rule(
        'a component or a port of the box does not fit',
        'a component with a tree that is no cell; a port of another struct than the first line says; rules of a port '
        'that cover different fields, or of an input that cover none',
        'Root 0 is the input and must cover a field; root 1 is the output.',
    ),
    'B6': Rule(
        'a cell of the box is not reached from its input',
        'a tree of the box in which an inner cell or the output is not reached from the input',
        'Lead from root 0 to the output and to every inner cell.',
    ),
    'B7': Rule(
        'a component of the box has no tree',
        'a component without a tree',
        'Each state that is named needs a rule that ends.',
    ),
    'C1': Rule(
        'no certificate has this line here', '', 'Only a whole report of SAFE, as it was printed, is a certificate.'
    ),
    'C2': Rule('a name that is not there', '', 'The certificate must be one of this very program.'),
    'C3': Rule(
        'a forest that is not sound', '', 'The certificate must be one of this very program, as it was printed.'
    ),
    'C4': Rule(
        'a forest with a member that leaks', '', 'The certificate must be one of this very program, as it was printed.'
    ),
}


def rule_of(code):
    return RULES.get(
        code, Rule('a rule that this table does not have', '', 'See docs/LANGUAGE.md and docs/REPORTS.md.')
    )
