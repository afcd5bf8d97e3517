"""Lists of words that stand for tokens, and texts of them."""
from itertools import product

from grammar.tokens import tokens_of

# Words that are tokens, of each kind that tells in the grammar of expressions.
EXPRESSION_WORDS = (
    "a int unsigned long char const 1 2 't' ( ) [ ] { } , : = . ... + - ~ * < > == not in is and or if else sizeof "
    "None ;"
).split()

# Whole expressions, and runs with something behind them.
EXPRESSIONS = """a
a + 1 * 2
a - a % 1 - 2
a // 2 & 1 | a ^ ~ a
a | 1 | a
a ^ 1 ^ a
a & 1 & a
a << 1 >> - 2
not a in a
a not in a
a is not None
a < a <= 1 == 2 != 't'
a > 1 >= a
a and not a or a and True
a or a if a and a else a if 1 else False
( a )
( )
( a , )
( a , 1 )
( a , 1 , )
[ ]
[ a ]
[ a , 1 , ]
{ }
{ a : 1 }
{ a : 1 , 't' : a , }
{ a : 1 , 't' : a , 2 : 't' }
't' 't' 't'
a . a
a . int ( )
a ( a )
a ( a , a = 1 , )
a ( int = a if a else 1 )
a [ a ]
a [ a , : ]
a [ : a ]
a [ a : a : a ]
a [ : : 1 , ... , ]
a ( ) [ a ] . a ( )
( a + 1 ) . a [ 1 ]
[ a ] [ 1 : ]
't' . a ( )
sizeof ( int )
sizeof ( unsigned char ) + 1
sizeof ( const int [ : , : : 1 ] )
sizeof ( signed long long int )
sizeof ( unsigned short int )
sizeof ( Py_ssize_t )
< int > a
< object > - a
< const long [ : ] > a . a
< int [ : : 1 , : ] > ( a )
< list > < dict > a
- + ~ a
not not a
int + unsigned
a , a
a ) a
( a ]
a = a
a [ ( a ) : ]"""

# Words that are tokens, of each kind that tells in the grammar of modules, and ends of lines.
MODULE_WORDS = (
    "a int nogil gil 1 't' True None = += ( ) [ ] : , ; . @ ? * - < not in if elif else while for with def cdef cpdef "
    "inline except noexcept void import from as pass return raise global NL IN OUT lambda"
).split()

# Words in whose place few others stand.
BREAKERS = "? else in ) = : , ; inline a if [ @".split()

# Words of types, and those that stand among them.
TYPE_WORDS = "a void const bint signed unsigned char short int long ,".split()

# Whole modules.
MODULES = """a
a , 1 ,
a = 1
a , = a = a , a
( a , a ) = a
( a ) , ( a , ) = a
a [ 1 ] , a . a [ a : a ] = a
a ( a ) [ a ] += a
a -= a if a else a
( a , a ) [ a ] = ( a , a . a )
pass ; break ; continue
a ; a = 1 ;
return
return a , a
raise a
raise a ( )
raise a ( a )
global a
global a , int
cdef int a
cdef int a , a = 1 , a
cdef unsigned long a = a
cdef int [ : , : : 1 ] a
cdef const int [ : ] a , a
cdef long long
cdef : IN int a NL
cdef : IN int a = a , a NL long [ : ] a OUT a
if a : pass
if a : a ; a = 1 ; NL a
if a : IN a OUT
if a : IN a NL pass OUT a
if a : a NL elif a : a NL else : a
if a : IN a OUT elif a : IN a OUT elif a : a NL else : IN a OUT a
if a : IN if a : a NL else : a OUT else : a
if a : IN if a : IN a OUT a OUT a
while a : IN cdef int a NL a OUT a
while not a : a
for a in a : a
for a , a [ 1 ] in a , a : IN a OUT
for ( a , a ) , ( a ) in a ( ) : pass
with gil : a
with nogil : IN with gil : a OUT
def a ( ) : pass
def a ( a , int a , ) : IN return a OUT a
def a ( const int [ : ] a not None , object a ) : a ; a
def a ( int , list , long long ) : pass
cdef a ( ) : pass
cdef int a ( ) : pass
cdef void a ( a ) : pass
cdef inline int a ( int a ) : pass
cdef int ( ) : pass
cdef long long long ( ) : pass
cpdef inline void a ( ) : IN pass OUT
cdef int a ( ) noexcept : pass
cdef int a ( ) except a : pass
cdef int a ( ) except ? - 1 nogil : pass
cdef int a ( ) except * with gil : pass
cdef int a ( ) noexcept nogil : pass
cpdef a ( ) nogil : IN a OUT a
@ a ( True ) NL def a ( ) : pass
@ a . a ( False ) NL @ a ( True ) NL cdef inline int a ( ) : pass
import a
import a . a as a
cimport a as a
from a import a
from a . a cimport a as a , a NL a
import a NL def a ( ) : IN a OUT a = 1 NL cdef int a"""


def text_of(words):
    """The text of words with spaces between them. `NL` stands for the end of a line, `IN` and `OUT` for one before a
    deeper and a shallower line."""
    text = ""
    level = 0
    for word in words:
        if word in ("NL", "IN", "OUT"):
            level = max(level + {"NL": 0, "IN": 1, "OUT": -1}[word], 0)
            text += "\n"
        elif not text or text.endswith("\n"):
            text += " " * level + word
        else:
            text += " " + word
    return text


class Shuffle:
    """The words of an alphabet in a row without order, the same at each run."""

    def __init__(self, alphabet):
        self.alphabet = alphabet
        self.state = 1

    def next(self):
        """The next word."""
        self.state = (self.state * 6364136223846793005 + 1442695040888963407) % 2**64
        return self.alphabet[(self.state >> 33) % len(self.alphabet)]


def short_lists(alphabet):
    """All lists of at most two words."""
    return [list(words) for count in range(3) for words in product(alphabet, repeat=count)]


def changed_lists(wholes, alphabet):
    """Lists of words, each as a whole and changed at each of its words: cut off before it, without it, with it twice,
    swapped with the next, and with another one in place of it and before it."""
    shuffle = Shuffle(alphabet)
    for whole in wholes.split("\n"):
        words = whole.split(" ")
        yield words
        for at, word in enumerate(words):
            before, behind, other = words[:at], words[at + 1 :], shuffle.next()
            yield before
            yield before + behind
            yield before + [word, word] + behind
            if behind:
                yield before + [behind[0], word] + behind[1:]
            yield before + [other] + behind
            yield before + [other, word] + behind


def type_lists():
    """All lists of three words of types behind `cdef`, as declarations and as functions."""
    for words in product(TYPE_WORDS, repeat=3):
        yield ["cdef", *words]
        yield ["cdef", *words, "(", ")", ":", "a"]


def broken_texts(text, shuffle):
    """A text with each of its tokens replaced by a word."""
    for token in tokens_of(text):
        before = text[: token.start]
        space = " " if before and before[-1] not in " \n" else ""
        yield before + space + shuffle.next() + " " + text[token.end :]
