"""The worked examples of LANGUAGE.md and OBJECTS.md, for `reference_frontend examples`."""

MONEY = """/// Money in cents.
public struct Money {
    public let cents: Int
    var text: String { return sign + "cents" }
    private var sign: String {
        if cents < 0 { return "-" }
        return ""
    }
    func plus(_ other: Money) -> Money {
        return Money(cents: cents + other.cents)
    }
}
"""
ACCOUNT = """struct Account {
    let owner: String
    var balance: Money
    var entries = 0
}
extension Account {
    func after(deposit m: Money) -> Account {
        var next = Account(owner: owner, balance: balance.plus(m))
        next.entries = entries + 1
        return next
    }
}
"""
BANK = """typealias Balance = Money
let opening: Balance = Money(cents: 100)
func run() {
    var n = 0
    var a = Account(owner: "Ada", balance: opening)
    while n < 3 {
        a = a.after(deposit: Money(cents: n * 10))
        n = n + 1
    }
    print(a.balance.cents)
}
"""
PROJECT = {"Money.swift": MONEY, "Account.swift": ACCOUNT, "Bank.swift": BANK}
RUN_CODE = ("func run 0 5 0| int 0| set 0 1| str \"Ada\"| load opening 0 1| call Account:init 3 4| set 1 4| label 0| get 0 1| int 3| lt.Int"
            "| unless 1| get 1 4| get 0 1| int 10| mul| call Money:init 1 1| call Account:after 5 4| set 1 4| get 0 1| int 1| add| set 0 1"
            "| jump 0| label 1| get 1 4| field 2 1 4| field 0 1 1| print.Int| return 0|end")
PARTIAL = ("partial Money.swift|public struct Money 1|public field Money:cents Int 0|internal prop Money:text String"
           "|internal func Money:plus(_:Money) Money")
NINE = "9223372036854775807"
ASKED_SIZES = """struct S { let a: Missing }
func f() -> S { return f() }
let b = f()
let c = S(a: 1)
"""
NO_STRUCT = """typealias T = Int
extension T {
    func n() -> Missing { return other + self.x }
}
"""
KEYS = """struct S { let b: Int
private let a: String }
extension S { func f() { } }
let g = 1
"""
ROOT = """struct T { let x: Missing }
struct S {
    var t: T
    func set() { t = 1 }
}
"""
# The sentence or text of the document, the files, what is asked, and what the document states. Asked is "errors" (all lines of
# the module), "has" (lines that are among these), "keys PATH" (of its nodes), or the part of an answer in which the stated
# lines stand together.
EXAMPLES = [
    ("OBJECTS: In the object of Bank.swift `run` is", PROJECT, "object Bank.swift", RUN_CODE),
    ("OBJECTS: no errors in it", PROJECT, "errors", ""),
    ("OBJECTS: the partial text of Money.swift is", PROJECT, "partial Money.swift", PARTIAL),
    ("OBJECTS: a file with errors has no partial text", {"e.swift": "let a = missing\nlet b = 1"}, "partial e.swift", None),
    ("OBJECTS: a file with errors has no object", {"e.swift": "let a = missing\nlet b = 1"}, "object e.swift", None),
    ("OBJECTS: its nodes are kept", {"e.swift": "let a = missing\nlet b = 1"}, "nodes e.swift",
     "node topLevel a| print internal let a broken| use topLevel a| use topLevel missing| use topLevel missing@e.swift"
     "|node topLevel b| print internal let b: Swift.Int| use topLevel b"),
    ("OBJECTS: other files without errors have their outputs", {"e.swift": "let a = missing", "f.swift": "let c = 1"}, "partial f.swift",
     "partial f.swift|internal let c Int"),
    ("OBJECTS: that of a file without declarations is `object PATH` alone", {"e.swift": "// none"}, "object e.swift", "object e.swift"),
    ("keys are in order by kind, then by aspect, then by context, then by name", {"a.swift": KEYS}, "keys a.swift",
     "topLevel S|topLevel g|nominal S|potentialMember S|member S a@a.swift|member S b|member S f"
     "|sourceFileProvide a.swift implementation"),
    ("an initial value that is read for a meaning asks `nominal` for memberwise calls alone", {"a.swift": ASKED_SIZES}, "nodes a.swift",
     "node topLevel b| print internal let b: S| use topLevel b| use topLevel f| use topLevel f@a.swift"
     "|node topLevel c| print internal let c broken| use topLevel S| use topLevel S@a.swift| use topLevel c| use nominal S"),
    ("the errors stand where b and c are checked", {"a.swift": ASKED_SIZES}, "errors",
     "a.swift:1:19: error: cannot find type 'Missing' in scope"
     "|a.swift:2:13: error: 'S' has errors where it is declared|a.swift:2:24: error: 'S' has errors where it is declared"
     "|a.swift:3:9: error: 'S' has errors where it is declared|a.swift:4:9: error: 'S' has errors where it is declared"),
    ("the members of an extension of what is no struct are read without a line", {"a.swift": NO_STRUCT}, "errors",
     "a.swift:2:11: error: extension of 'T', which is not a struct of this module"),
    ("their keys have nodes and prints", {"a.swift": NO_STRUCT}, "nodes a.swift", "node member T n| print internal func n broken"),
    ("their look-ups are uses of the implementation", {"a.swift": NO_STRUCT}, "nodes a.swift",
     "node sourceFileProvide a.swift implementation| use topLevel Missing| use topLevel Missing@a.swift| use topLevel T"
     "| use topLevel other| use topLevel other@a.swift| use member T other| use member T other@a.swift"),
    ("Of a root that is a member both `self` and the member are asked", {"a.swift": ROOT}, "errors",
     "a.swift:1:19: error: cannot find type 'Missing' in scope|a.swift:3:12: error: 'T' has errors where it is declared"
     "|a.swift:4:18: error: 'S' has errors where it is declared|a.swift:4:18: error: 'T' has errors where it is declared"
     "|a.swift:4:18: error: cannot assign to 't'"),
    ("neither can members that are named alone", {"a.swift": "struct S {\nvar n: Int\nfunc up() { n = n + 1 }\n}"}, "errors",
     "a.swift:3:13: error: cannot assign to 'n'"),
    ("Where some file has no tree, the lines of such files are all lines", {"a.swift": "let a = (", "b.swift": "let b = missing"}, "errors",
     "a.swift:1:10: error: unexpected end of file"),
    ("and nothing is built", {"a.swift": "let a = (", "b.swift": "let b = 1"}, "object b.swift", None),
    ("lines without a place come before, each sort alone", {"a b.swift": "let a = (", "b.swift": "let b = missing"}, "errors",
     "error: 'a b.swift' is not a plain path"),
    ("`d/.a.swift` is plain", {"d/.a.swift": "let a = 1"}, "errors", ""),
    ("In `1é` the `é` is a bad character", {"a.swift": "let a = 1é"}, "errors", "a.swift:1:10: error: character not allowed"),
    ("a comment without end is told at the start of its outermost `/*`", {"a.swift": "let a = 1 /* // /* */"}, "errors",
     "a.swift:1:11: error: comment is not closed"),
    ("`self.a = x` has an unexpected `=`", {"a.swift": "struct S {\nvar a: Int\nfunc f() { self.a = 1 }\n}"}, "errors",
     "a.swift:3:19: error: unexpected '='"),
    ("`1(2)` is a statement, and 1 a value", {"a.swift": "func f() { 1(2) }"}, "errors",
     "a.swift:1:12: error: cannot call a value of type 'Int'"),
    ("a string with its quotes and escapes", {"a.swift": "let a = 1 \"\\n\""}, "errors", "a.swift:1:11: error: unexpected '\"\\n\"'"),
    ("`private let a` beside `let a` in one file are two keys, and the struct has both as fields",
     {"a.swift": "struct S { let a: Int\nprivate let a: String }"}, "nodes a.swift",
     "node nominal S| print internal struct S 3 | let a: Swift.Int 0 | let a@a.swift: Swift.String 1"),
    ("a function that has itself as a type is circular", {"a.swift": "func f(x: f) { }"}, "errors",
     "a.swift:1:6: error: circular reference through 'f'|a.swift:1:11: error: 'f' has errors where it is declared"),
    ("a type's name that means a value or a function", {"a.swift": "func f() { }\nlet a: f = 1"}, "errors",
     "a.swift:2:8: error: 'f' is not a type"),
    ("`self` stands outside of a member in an initial value of a stored property", {"a.swift": "struct S { let a = self }"}, "errors",
     "a.swift:1:20: error: 'self' is not a value"),
    ("a value of the type `Void` fits there too", {"a.swift": "func f() { return print(1) }"}, "errors", ""),
    ("a global whose type is written keeps it", {"a.swift": "struct S { let a: Missing }\nlet g: S = 1"}, "errors",
     "a.swift:1:19: error: cannot find type 'Missing' in scope|a.swift:2:8: error: 'S' has errors where it is declared"
     "|a.swift:2:12: error: cannot convert value of type 'Int' to 'S'"),
    ("each written type but an alias's", {"a.swift": "struct S { let a: Missing }\ntypealias A = S"}, "errors",
     "a.swift:1:19: error: cannot find type 'Missing' in scope"),
    ("a call with an argument that has no type doesn't say that a value can't be called", {"a.swift": "func f() { 1(missing) }"}, "errors",
     "a.swift:1:14: error: cannot find 'missing' in scope"),
    ("an ambiguous member says that alone, also where `self` has errors",
     {"a.swift": "struct S {\nlet a: Missing\nvar m: Int { return 1 }\nvar m: Int { return m }\n}"}, "errors",
     "a.swift:2:8: error: cannot find type 'Missing' in scope|a.swift:3:5: error: invalid redeclaration of 'm'"
     "|a.swift:4:5: error: invalid redeclaration of 'm'|a.swift:4:21: error: ambiguous use of 'm'"),
    ("where a written result means nothing, no `return` is told", {"a.swift": "func f() -> Missing { return }"}, "errors",
     "a.swift:1:13: error: cannot find type 'Missing' in scope"),
    ("all three of a name that is declared both to itself and for all, and in another file",
     {"a.swift": "private let n = 1\nlet n = 2", "b.swift": "let n = 3"}, "errors",
     "a.swift:1:13: error: invalid redeclaration of 'n'|a.swift:2:5: error: invalid redeclaration of 'n'"
     "|b.swift:1:5: error: invalid redeclaration of 'n'"),
    ("OBJECTS: the object of globals", {"a.swift": "let NAME = 1 + OTHER\nlet OTHER = 0_07\n"}, "object a.swift",
     "object a.swift|global NAME 1|func NAME:init 0 0 0| int 1| load OTHER 0 1| add| store NAME 0 1| return 0|end|global OTHER 1"
     "|func OTHER:init 0 0 0| int 7| store OTHER 0 1| return 0|end"),
    ("LANGUAGE: 'print' is not a value", {"a.swift": "let a = print"}, "errors",
     "a.swift:1:9: error: 'print' is not a value"),
    ("an unknown part wins, so that `struct S` with `let a: Missing` and, on a line of its own, `let s: S` is circular",
     {"a.swift": "struct S { let a: Missing\nlet s: S }"}, "errors",
     "a.swift:1:8: error: circular reference through 'S'|a.swift:1:19: error: cannot find type 'Missing' in scope"
     "|a.swift:2:8: error: 'S' has errors where it is declared"),
    ("`typealias A = B` with `typealias B = A` gives two lines each, at the name and at the type",
     {"a.swift": "typealias A = B\ntypealias B = A"}, "errors",
     "a.swift:1:11: error: circular reference through 'A'|a.swift:1:15: error: 'B' has errors where it is declared"
     "|a.swift:2:11: error: circular reference through 'B'|a.swift:2:15: error: 'A' has errors where it is declared"),
    ("`A(1)`, where A is an alias of `Int`, gives `'A' is not a value`", {"a.swift": "typealias A = Int\nlet x: Int = A(1)"},
     "errors", "a.swift:2:14: error: 'A' is not a value"),
    ("`Int(1)` gives `cannot find 'Int' in scope`", {"a.swift": "let x: Int = Int(1)"}, "errors",
     "a.swift:1:14: error: cannot find 'Int' in scope"),
    ("`(f)(1)` reads `f` as a value", {"a.swift": "func f(_ x: Int) { }\nfunc g() { (f)(1) }"}, "errors",
     "a.swift:2:13: error: 'f' is not a value"),
    ("A type's name that means a global which is broken gives `has errors where it is declared`",
     {"a.swift": "let g = missing\nlet h: g = 1"}, "has", "a.swift:2:8: error: 'g' has errors where it is declared"),
    ("A root that is a function, a struct or `print` is read as a name first, and gives `is not a value`",
     {"a.swift": "struct S { }\nfunc f() {\nf = 1\nS = 1\nprint = 1\n}"}, "errors",
     "a.swift:3:1: error: 'f' is not a value|a.swift:4:1: error: 'S' is not a value|a.swift:5:1: error: 'print' is not a value"),
    ("A part that can't be assigned and whose type's `nominal` is broken gives both lines",
     {"a.swift": "struct S { let a: Missing }\nfunc f(s: S) {\ns = 1\n}"}, "has",
     "a.swift:3:1: error: 'S' has errors where it is declared|a.swift:3:1: error: cannot assign to 's'"),
    ("Members of equal name of two structs of one name are declared again too",
     {"a.swift": "struct S { let a: Int }", "b.swift": "struct S { let a: Int }"}, "errors",
     "a.swift:1:8: error: invalid redeclaration of 'S'|a.swift:1:16: error: invalid redeclaration of 'a'"
     "|b.swift:1:8: error: invalid redeclaration of 'S'|b.swift:1:16: error: invalid redeclaration of 'a'"),
    ("An extension of such a struct counts as one of what is no struct",
     {"a.swift": "struct S { }\nstruct S { }\nextension S { func f() { missing() } }"}, "has",
     "a.swift:3:11: error: extension of 'S', which is not a struct of this module"),
    ("a call with wrong labels or a wrong number says that alone, and no conversions",
     {"a.swift": "func f(x: Int) { }\nfunc g() { f(y: true) }"}, "errors", "a.swift:2:12: error: wrong arguments in call to 'f'"),
    ("A call with an argument that has no type says nothing else",
     {"a.swift": "func f(x: Int, y: Int) { }\nfunc g() { f(y: true, missing) }"}, "errors",
     "a.swift:2:23: error: cannot find 'missing' in scope"),
    ("a local that is declared again in its scope: the first one is what its name finds",
     {"a.swift": "func g() {\nlet x = 1\nlet x = true\nlet y: Int = x\n}"}, "errors", "a.swift:3:5: error: invalid redeclaration of 'x'"),
    ("what `print` is given (B is `String`)", {"a.swift": "struct S { }\nfunc g() { print(S()) }"}, "errors",
     "a.swift:2:18: error: cannot convert value of type 'S' to 'String'"),
    ("private and fileprivate: declared both to itself and for all", {"a.swift": "private let a = 1\nlet a = 2"}, "errors",
     "a.swift:1:13: error: invalid redeclaration of 'a'|a.swift:2:5: error: invalid redeclaration of 'a'"),
    ("a value above 9223372036854775807 is too wide", {"a.swift": "let a = " + NINE + "\nlet b = 9223372036854775808"}, "errors",
     "a.swift:2:9: error: integer literal is larger than " + NINE),
    ("an integer that is too wide and has a letter after it is a bad number", {"a.swift": "let a = 9223372036854775808z"},
     "errors", "a.swift:1:9: error: bad number"),
    ("a string with a bad escape and no end isn't closed", {"a.swift": "let a = \"\\q\n"}, "errors",
     "a.swift:1:9: error: string is not closed"),
    ("another escape is a bad escape, told at the `\\`", {"a.swift": "let a = \"\\q\""}, "errors", "a.swift:1:10: error: bad escape"),
    ("the end of the file where a token is still owed, told behind the last byte", {"a.swift": "let a = \n"}, "errors",
     "a.swift:2:1: error: unexpected end of file"),
    ("the first bracket that opens level 101, whichever comes first", {"a.swift": "let a = " + "(" * 101 + ")"}, "errors",
     "a.swift:1:109: error: nested deeper than 100 levels"),
    ("and the unexpected token where both are one", {"a.swift": "func f() { return " + "(" * 98 + "x " + "\n(" + ")"}, "errors",
     "a.swift:2:1: error: unexpected '('"),
    ("prints: fields", {"a.swift": "public struct T { private let a: String\nvar b = true }"}, "nodes a.swift",
     "node nominal T| print public struct T 3 | let a@a.swift: Swift.String 0 | var b: Swift.Bool 2 ="),
    ("uses: potentialMember T: topLevel T alone", {"a.swift": "extension T { }"}, "nodes a.swift",
     "node potentialMember T| print extension T| use topLevel T"),
]
